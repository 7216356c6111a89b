// The page: its two tabs, the menu of examples, and files that are dropped on it or picked.
import { load } from './library.js';
import { Player } from './play.js';
import { Desk } from './commands.js';

const EXAMPLES = {
  tiles: ['tiles.asm', 'tiles-memory.asm', 'tiles-macros.asm', 'tiles-main.asm', 'tiles-handler.asm', 'tiles-data.asm', 'tiles.cert'],
  console: ['console.asm'],
  'vertical-sync': ['vertical-sync.asm'],
  pulse: ['pulse.asm', 'pulse.cert'],
  button: ['button.asm', 'button.cert'],
  'button-late': ['button-late.asm'],
  'half-pulse': ['half-pulse.asm', 'half-pulse.cert'],
  'loop-ring': ['loop-ring.asm', 'loop-ring.cert'],
  ring: ['ring.asm', 'ring.cert'],
};

const GAMES = ['tiles', 'console']; // those whose HEX files lie beside the page

const element = id => document.getElementById(id);
const say = text => { element('says').textContent = text; };

// Commands beside the page: each answer goes to who asked for it.
class Commands {
  constructor() {
    this.worker = new Worker('worker.js', { type: 'module' });
    this.waiting = new Map();
    this.number = 0;
    this.worker.onmessage = ({ data }) => {
      this.waiting.get(data.number)(data);
      this.waiting.delete(data.number);
    };
  }

  run(words, files) {
    const number = ++this.number;
    return new Promise(done => {
      this.waiting.set(number, done);
      this.worker.postMessage({ number, words, files });
    });
  }
}

function choose(tab) {
  for (const it of ['play', 'make']) {
    element(it).hidden = it !== tab;
    element(`to-${it}`).setAttribute('aria-selected', String(it === tab));
  }
}

class Page {
  async start() {
    // of each tab a library of its own, so that a look at a frame leaves the game alone
    const [game, look] = await Promise.all([load(), load()]);
    this.commands = game.hasCommands() ? new Commands() : null;
    this.player = new Player(game, say);
    this.desk = new Desk(look, this.commands, (name, hex, cert) => this.play(name, hex, cert));
    element('to-make').hidden = !this.commands;
    const names = this.commands ? Object.keys(EXAMPLES) : GAMES;
    for (const name of names) element('example').add(new Option(name));
    element('example').addEventListener('change', event => {
      this.open(event.target.value);
      event.target.blur();
    });
    element('response').addEventListener('change', event => { this.player.response = Number(event.target.value); });
    element('picker').addEventListener('change', event => this.take(event.target.files));
    addEventListener('dragover', event => event.preventDefault());
    addEventListener('drop', event => {
      event.preventDefault();
      this.take(event.dataTransfer.files);
    });
    const wanted = new URLSearchParams(location.search), name = names.includes(wanted.get('game')) ? wanted.get('game') : names[0];
    if (wanted.get('tab') === 'make' && this.commands) choose('make');
    element('example').value = name;
    await this.open(name);
    if (wanted.has('frames')) this.player.run(Number(wanted.get('frames')));
    document.body.dataset.ready = 'yes';
  }

  // An example: its files, and the game that they make. A module without commands takes the HEX file that lies beside the page.
  async open(name) {
    if (!this.commands) {
      await this.play(`${name}.hex`, new Uint8Array(await (await fetch(`${name}.hex`)).arrayBuffer()), undefined, true);
      return;
    }
    for (const file of EXAMPLES[name]) {
      const answer = await fetch(`../examples/${file}`);
      if (!answer.ok) throw new Error(`../examples/${file} isn't there: serve the top of the repository.`);
      this.desk.add(file, new Uint8Array(await answer.arrayBuffer()));
    }
    this.desk.show(`${name}.asm`);
    const built = await this.commands.run(['build', `${name}.asm`, `${name}.hex`], this.desk.files);
    for (const [file, bytes] of built.files ?? []) this.desk.add(file, bytes);
    if (built.status !== 0) throw new Error(built.failed ?? built.text);
    this.desk.look();
    await this.play(`${name}.hex`, this.desk.files.get(`${name}.hex`), this.desk.files.get(`${name}.cert`), true);
  }

  // Plays, and says what check says of the certificate, if there is one.
  async play(name, hex, cert, stays = false) {
    let verdict = '';
    if (cert && this.commands) {
      const { status, text, failed } = await this.commands.run(['check', 'hex', 'cert'], new Map([['hex', hex], ['cert', cert]]));
      verdict = status === 0 ? 'certified' : (failed ?? text).split('\n')[0];
    }
    if (this.player.open(name, hex, verdict) && !stays) choose('play');
  }

  // Files that were dropped or picked: all go to the second tab, and a HEX file is played.
  async take(list) {
    for (const file of list) this.desk.add(file.name, new Uint8Array(await file.arrayBuffer()));
    const names = Array.from(list, it => it.name), hex = names.find(it => /\.hex$/i.test(it));
    this.desk.show(names.find(it => /\.asm$/i.test(it)) ?? names[0]);
    const cert = names.find(it => /\.cert$/i.test(it));
    if (hex) await this.play(hex, this.desk.files.get(hex), cert && this.desk.files.get(cert));
    else if (this.commands) choose('make');
  }
}

element('to-play').addEventListener('click', () => choose('play'));
element('to-make').addEventListener('click', () => choose('make'));
const page = new Page();
window.page = page;
const failed = error => say(String(error?.message ?? error));
addEventListener('unhandledrejection', event => failed(event.reason));
addEventListener('error', event => {
  if (page.player) page.player.playing = false;
  failed(event.error);
});
page.start().catch(failed);
