// The first tab: a console that is played a frame at a time.
import { Picture } from './picture.js';
import { crc } from './sums.js';
import { FRAME, STOPPED } from './library.js';

const CLOCKS = 28636360; // a second
const CALL = 1000000; // clocks of a call in which no frame ends
const PAIRS = 65536; // of a pad file
const RATE = 15734; // sounds a second

// The bits of a player's word: B, Y, Select, Start, Up, Down, Left, Right, A, X, L, R.
const KEYS = [
  ['KeyZ', 'KeyA', 'Space', 'Enter', 'ArrowUp', 'ArrowDown', 'ArrowLeft', 'ArrowRight', 'KeyX', 'KeyS', 'KeyQ', 'KeyW'],
  ['KeyG', 'KeyT', 'Digit9', 'Digit0', 'KeyI', 'KeyK', 'KeyJ', 'KeyL', 'KeyH', 'KeyY', 'Digit5', 'Digit6'],
];
const PAD = [0, 2, 8, 9, 12, 13, 14, 15, 1, 3, 4, 5]; // the same buttons of a standard gamepad

export class Player {
  constructor(library, say) {
    this.library = library;
    this.say = say;
    this.picture = new Picture(document.getElementById('screen'));
    this.keys = [0, 0]; // buttons that are held,
    this.taps = [0, 0]; // and those that were pressed since the last frame
    this.slots = [];
    this.name = this.verdict = '';
    this.playing = this.paused = false;
    this.response = 4;
    this.debt = this.spent = this.clocks = this.played = 0;
    this.connect();
    requestAnimationFrame(now => {
      this.last = this.since = now;
      this.turn(now);
    });
  }

  connect() {
    const on = (id, run) => document.getElementById(id).addEventListener('click', event => {
      run();
      event.target.blur();
    });
    on('pause', () => this.pause(!this.paused));
    on('step', () => this.step());
    on('reset', () => this.reset());
    on('sound', () => this.listen());
    on('record', () => this.download());
    on('save', () => this.save(this.slot()));
    on('load', () => this.restore(this.slot()));
    addEventListener('keydown', event => this.key(event, true));
    addEventListener('keyup', event => this.key(event, false));
    addEventListener('blur', () => { this.keys = [0, 0]; });
  }

  slot() {
    return Number(document.getElementById('slot').value);
  }

  isShown() {
    return !document.getElementById('play').hidden;
  }

  // Begins with a HEX text, whose name and verdict of a check are shown.
  open(name, hex, verdict) {
    if (this.library.reset(hex, this.response) !== FRAME) {
      this.say(`${name} isn't an Intel HEX text.`);
      return false;
    }
    Object.assign(this, { name, hex, verdict, slots: [] });
    this.start();
    this.pause(false);
    return true;
  }

  start() {
    Object.assign(this, { playing: true, pairs: [], frames: 0, sum: 0, whole: true, debt: 0 });
    this.status();
  }

  reset() {
    if (!this.hex) return;
    this.library.reset(this.hex, this.response);
    this.start();
  }

  pause(is) {
    this.paused = is;
    document.getElementById('pause').textContent = is ? 'go on (P)' : 'pause (P)';
    this.status();
  }

  step() {
    this.pause(true);
    if (this.playing) this.frame();
    this.picture.draw();
    this.status();
  }

  save(slot) {
    if (this.hex) this.slots[slot] = { state: this.library.saved(), pairs: this.pairs.slice(), frames: this.frames };
    this.status();
  }

  // A state has its record, so that what is played on from it is a record from reset too.
  restore(slot) {
    const it = this.slots[slot];
    if (!it) return;
    this.library.restore(it.state);
    Object.assign(this, { playing: true, pairs: it.pairs.slice(), frames: it.frames, whole: false, debt: 0 });
    this.status();
  }

  // What each latch of the pads found since reset, as a pad file.
  record() {
    const hex = word => word.toString(16).toUpperCase().padStart(4, '0');
    return this.pairs.map(([one, two]) => `${hex(one)} ${hex(two)}\n`).join('');
  }

  download() {
    const link = document.createElement('a');
    link.href = URL.createObjectURL(new Blob([this.record()], { type: 'text/plain' }));
    link.download = `${this.name.replace(/\.[^.]*$/, '')}.pads`;
    link.click();
    setTimeout(() => URL.revokeObjectURL(link.href), 1000);
  }

  listen() {
    if (this.audio) this.audio.close();
    this.audio = this.audio ? null : new AudioContext();
    this.ahead = 0;
    document.getElementById('sound').textContent = this.audio ? 'sound off' : 'sound on';
  }

  key(event, down) {
    if (!this.isShown() || ['INPUT', 'TEXTAREA', 'SELECT'].includes(event.target.tagName) || event.ctrlKey || event.metaKey) return;
    const player = KEYS.findIndex(it => it.includes(event.code));
    const own = { KeyP: () => this.pause(!this.paused), KeyN: () => this.step(), KeyR: () => this.download(), Backspace: () => this.reset() };
    const slot = ['F1', 'F2', 'F3', 'F4'].indexOf(event.code);
    if (player < 0 && slot < 0 && !own[event.code]) return;
    event.preventDefault();
    if (player >= 0) {
      const bit = 1 << KEYS[player].indexOf(event.code);
      this.keys[player] = down ? this.keys[player] | bit : this.keys[player] & ~bit;
      if (down) this.taps[player] |= bit; // a key that is let go before the next frame counts for it
    } else if (down && !event.repeat) {
      if (slot < 0) own[event.code]();
      else if (event.shiftKey) this.save(slot);
      else this.restore(slot);
    }
  }

  held(player) {
    const pads = navigator.getGamepads ? Array.from(navigator.getGamepads()).filter(it => it && it.mapping === 'standard') : [];
    const pad = pads[player];
    let word = this.keys[player] | this.taps[player];
    this.taps[player] = 0;
    if (pad) {
      PAD.forEach((button, bit) => { word |= (pad.buttons[button]?.pressed ? 1 : 0) << bit; });
      const [x, y] = pad.axes;
      word |= (y < -0.5) << 4 | (y > 0.5) << 5 | (x < -0.5) << 6 | (x > 0.5) << 7;
    }
    return word;
  }

  // Up to the end of a frame: how many clocks passed.
  frame() {
    const one = this.held(0), two = this.held(1), before = this.library.clock(), start = performance.now();
    const { status, latches, records } = this.library.frame(one, two, CALL);
    this.spent += performance.now() - start;
    if (status > STOPPED) {
      this.playing = false;
      this.say('There is no memory left.');
      return 0;
    }
    for (let k = 0; k < latches && this.pairs.length < PAIRS; k++) this.pairs.push([one, two]);
    if (this.summing) this.sum = crc(records, this.sum);
    const { sounds, ended } = this.picture.take(records), passed = this.library.clock() - before;
    this.frames += ended;
    this.played++;
    this.clocks += passed;
    if (status === STOPPED) this.playing = false;
    if (this.audio) this.hear(sounds);
    return passed;
  }

  hear(sounds) {
    if (!sounds.length) return;
    const buffer = this.audio.createBuffer(1, sounds.length, RATE), source = this.audio.createBufferSource();
    buffer.getChannelData(0).set(sounds.map(it => (it - 128) / 160));
    source.buffer = buffer;
    source.connect(this.audio.destination);
    const least = this.audio.currentTime + 0.03;
    if (this.ahead < least || this.ahead > least + 0.2) this.ahead = least; // too late, or too far ahead
    source.start(this.ahead);
    this.ahead += sounds.length / RATE;
  }

  // So many frames from reset as fast as they come, and then a pause and the sum of their records.
  run(count) {
    this.reset();
    this.summing = true;
    while (this.playing && this.frames < count) this.frame();
    this.picture.draw();
    this.pause(true);
  }

  turn(now) {
    requestAnimationFrame(next => this.turn(next));
    const passed = Math.min(now - this.last, 34); // two frames: a processor that is too slow for the console makes it slower
    this.last = now;
    if (this.playing && !this.paused && this.isShown()) {
      this.debt += passed / 1000 * CLOCKS;
      const before = this.played;
      while (this.playing && this.debt > 0) this.debt -= this.frame() || CALL;
      if (this.played > before) this.picture.draw();
    }
    if (now - this.since > 500) {
      this.speed = this.clocks / CLOCKS / (now - this.since) * 100000;
      this.each = this.played ? this.spent / this.played : 0;
      Object.assign(this, { clocks: 0, spent: 0, played: 0, since: now });
      this.status();
    }
  }

  status() {
    if (!this.hex) return;
    const parts = [this.name, this.verdict, `frame ${this.frames}`];
    if (!this.playing) parts.push('stopped: its next instruction is none that a game has');
    else if (this.paused) parts.push('paused');
    else if (this.speed !== undefined) parts.push(`${this.speed.toFixed(0)} %`, `${this.each.toFixed(1)} ms a frame`);
    parts.push(`${this.pairs.length} latches`, this.pairs.length < PAIRS ? '' : 'the record is full');
    if (this.summing && this.whole) parts.push(`sum ${this.sum.toString(16).toUpperCase().padStart(8, '0')}`);
    const kept = [0, 1, 2, 3].filter(it => this.slots[it]).map(it => it + 1);
    if (kept.length) parts.push(`states ${kept.join(' ')}`);
    this.say(parts.filter(Boolean).join(', '));
  }
}
