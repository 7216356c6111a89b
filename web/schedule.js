// The schedule of a certificate as a drawing: each kind of line, and the frame as a strip of its lines. tools/schedule draws the same
// in more detail.

const LEFT = 130, WIDE = 760, ROW = 58;

function read(text) {
  const kinds = [], lines = [];
  for (const line of text.split('\n')) {
    const words = line.split(' ');
    if (words[0] === 'kind') kinds.push({ length: Number(words[2] ?? 1820), events: [], lines: 0, level: null });
    else if (/^\d+$/.test(words[0]) && kinds.length) kinds.at(-1).events.push({ clock: Number(words[0]), what: words[1], value: words[2] });
    else if (words[0] === 'run') for (let k = 0; k < Number(words[1]); k++) lines.push(Number(words[2]));
    else if (words[0] === 'point') break;
  }
  return { kinds, lines };
}

// The level of sync at each kind's first line, as the lines before it leave it.
function setLevels({ kinds, lines }) {
  let level = 1;
  for (const round of [0, 1]) {
    for (const number of lines) {
      const kind = kinds[number];
      if (round) {
        kind.lines++;
        kind.level ??= level;
      }
      for (const it of kind.events) if (it.what === 'sync') level = Number(it.value);
    }
  }
}

const x = clock => (LEFT + WIDE * clock / 1820).toFixed(1);

function waveform(kind, name, y) {
  const high = y + 10, deep = y + 34, at = level => level ? high : deep;
  let level = kind.level ?? 1, path = `M${x(0)} ${at(level)}`, more = '';
  for (const it of kind.events.filter(each => each.what === 'sync')) {
    level = Number(it.value);
    path += `H${x(it.clock)}V${at(level)}`;
    more += `<text x="${Number(x(it.clock)) + 2}" y="${deep + 12}">${it.clock}</text>`;
  }
  const pixels = kind.events.filter(it => it.what === 'pixel'), leave = kind.events.filter(it => it.what === 'leave').at(-1);
  if (pixels.length) {
    const [first, last] = [pixels[0].clock, pixels.at(-1).clock];
    more += `<rect class="pixels" x="${x(first)}" y="${high + 3}" width="${Math.max(WIDE * (last - first) / 1820, 2).toFixed(1)}" height="12"/>` +
      `<text x="${Number(x(first)) + 4}" y="${high + 13}">${pixels.length} pixels, ${first} to ${last}</text>`;
  }
  if (leave) {
    more = `<rect class="main" x="${x(leave.clock)}" y="${high - 6}" width="${(WIDE * (kind.length - leave.clock) / 1820).toFixed(1)}" height="46"/>` +
      `<text x="${x(leave.clock)}" y="${high - 8}">return ${leave.clock}</text>` + more;
  }
  return `<g>${more}<path d="${path}H${x(kind.length)}"/><text x="4" y="${y + 18}">${name}: ${kind.lines} line${kind.lines === 1 ? '' : 's'}</text>` +
    `<text x="4" y="${y + 32}">${kind.length} clocks</text></g>`;
}

function strip({ kinds, lines }, y) {
  const total = lines.reduce((sum, it) => sum + kinds[it].length, 0);
  let out = '', clock = 0;
  for (let k = 0; k < lines.length;) {
    const number = lines[k], from = clock;
    while (k < lines.length && lines[k] === number) clock += kinds[lines[k++]].length;
    const left = LEFT + WIDE * from / total, wide = WIDE * (clock - from) / total;
    out += `<rect class="kind${number % 4}" x="${left.toFixed(1)}" y="${y}" width="${wide.toFixed(2)}" height="20"/>`;
    if (wide > 14) out += `<text x="${(left + wide / 2 - 4).toFixed(1)}" y="${y + 14}">${letter(number)}</text>`;
  }
  return `${out}<text x="4" y="${y + 14}">frame: ${lines.length} line${lines.length === 1 ? '' : 's'}</text>`;
}

const letter = number => number < 26 ? String.fromCharCode(65 + number) : String(number);

// An SVG picture, or an empty text where the text has no lines.
export function drawing(text) {
  const schedule = read(text);
  if (!schedule.lines.length || schedule.lines.some(it => !schedule.kinds[it])) return '';
  setLevels(schedule);
  const rows = schedule.kinds.map((kind, k) => waveform(kind, letter(k), 16 + k * ROW)).join('');
  const y = 20 + schedule.kinds.length * ROW, height = y + 30;
  return `<svg xmlns="http://www.w3.org/2000/svg" viewBox="0 0 ${LEFT + WIDE + 10} ${height}">${rows}${strip(schedule, y)}</svg>`;
}
