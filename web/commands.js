// The second tab: files in memory, and commands over them.
import { Picture } from './picture.js';
import { drawing } from './schedule.js';
import { FRAME, QUIET } from './library.js';

const FRAMES = 3; // the picture is that of the third frame, as the first is cut
const CALL = 1000000;

// What each button runs. S is the source, H its HEX file, C its certificate, T its hints, F the source with its macros expanded, N a
// file of pads in which nothing is pressed, I the clocks of an interrupt's entry.
const BUTTONS = {
  build: [['build', 'S', 'H']],
  certify: [['expand', 'S', 'F'], ['certify', 'F', 'I', 'H', 'C']],
  check: [['check', 'H', 'C']],
  hints: [['hints', 'H', 'N', 'I', '4000000', 'T']],
  find: [['find', 'H', 'T', 'I', 'C']],
  why: [['why', 'H', 'T', 'I']],
  timing: [['timing', 'H', 'C']],
  report: [['report', 'H', 'C']],
  listing: [['dis', 'H']],
};

export class Desk {
  constructor(library, commands, play) {
    Object.assign(this, { library, commands, play, files: new Map([['no-pads.txt', new Uint8Array()]]), shown: '' });
    this.list = document.getElementById('files');
    this.text = document.getElementById('text');
    this.out = document.getElementById('out');
    this.picture = new Picture(document.getElementById('frame'));
    this.list.addEventListener('change', () => this.show(this.list.value));
    this.text.addEventListener('input', () => this.files.set(this.shown, new TextEncoder().encode(this.text.value)));
    document.getElementById('begin').addEventListener('click', () => this.begin());
    document.getElementById('fetch').addEventListener('click', () => this.download());
    if (commands) this.buttons();
  }

  async buttons() {
    const { text } = await this.commands.run(['help'], new Map());
    const known = new Set(text.split('\n').map(line => line.trim().split(/\s+/)[0]));
    for (const [name, steps] of Object.entries(BUTTONS)) {
      if (!steps.every(words => known.has(words[0]))) continue;
      const button = document.createElement('button');
      button.id = `do-${name}`;
      button.textContent = name;
      button.addEventListener('click', () => this.run(name));
      document.getElementById('buttons').append(button);
    }
    document.getElementById('buttons').dataset.ready = 'yes';
  }

  add(name, bytes) {
    this.files.set(name, bytes);
    const is = Array.from(this.list.options).some(it => it.value === name);
    if (!is) this.list.add(new Option(name));
    if (this.shown === name) this.show(name);
  }

  // Shows a file's text, which can be edited, and takes its name without the ending for those of the other files.
  show(name) {
    this.shown = this.list.value = name;
    this.text.value = new TextDecoder().decode(this.files.get(name));
  }

  words(words) {
    const base = this.base(), names = {
      S: base.source, H: `${base.name}.hex`, C: `${base.name}.cert`, T: `${base.name}.hints`, F: `${base.name}.flat.asm`, N: 'no-pads.txt',
      I: document.getElementById('response').value,
    };
    return words.map(it => names[it] ?? it);
  }

  // The program that is worked on: the source that was chosen last, or a HEX file without one.
  base() {
    const name = this.shown.replace(/\.[^.]*$/, '');
    return { name, source: this.files.has(`${name}.asm`) ? `${name}.asm` : this.shown };
  }

  async run(name) {
    const status = document.getElementById('status');
    this.out.textContent = '';
    status.textContent = `${name} ..`;
    status.dataset.done = '';
    for (const step of BUTTONS[name]) {
      const words = this.words(step), start = performance.now();
      const answer = await this.commands.run(words, this.files);
      this.out.textContent += `$ uzebox ${words.join(' ')}\n${answer.failed ?? answer.text}`;
      status.textContent = `${name}: status ${answer.status ?? 'none'}, ${Math.round(performance.now() - start)} ms`;
      for (const [file, bytes] of answer.files ?? []) this.add(file, bytes);
      if (answer.status !== 0) break;
    }
    this.look();
    status.dataset.done = 'yes'; // all steps of the button are over
  }

  // The picture of a frame, and the schedule, of the files that are there.
  look() {
    const hex = this.files.get(`${this.base().name}.hex`), cert = this.files.get(`${this.base().name}.cert`);
    document.getElementById('schedule').innerHTML = cert ? drawing(new TextDecoder().decode(cert)) : '';
    const canvas = document.getElementById('frame');
    canvas.hidden = true;
    if (!hex || this.library.reset(hex, Number(document.getElementById('response').value)) !== FRAME) return;
    for (let ended = 0, calls = 0; ended < FRAMES && calls < 2 * FRAMES; calls++) {
      const { status, records } = this.library.frame(0, 0, CALL);
      if (status > QUIET) break;
      ended += this.picture.take(records).ended;
      canvas.hidden = ended < FRAMES;
    }
    this.picture.draw();
  }

  begin() {
    const { name } = this.base(), hex = this.files.get(`${name}.hex`);
    if (hex) this.play(`${name}.hex`, hex, this.files.get(`${name}.cert`));
    else this.out.textContent = 'There is no HEX file yet: build makes it.\n';
  }

  download() {
    const link = document.createElement('a');
    link.href = URL.createObjectURL(new Blob([this.files.get(this.shown) ?? '']));
    link.download = this.shown;
    link.click();
    setTimeout(() => URL.revokeObjectURL(link.href), 1000);
  }
}
