// Frames as a television shows them: of each line 377 samples, of each frame 242 lines (SMPTE 170M).

export const WIDTH = 377, HEIGHT = 242;
const SAMPLES = 455, LEFT = 67, BLANK = 14, ROWS = 1024;

// PORTC is BBGGGRRR.
const PALETTE = Uint32Array.from({ length: 256 }, (_, sample) =>
  (255 << 24 | (sample >> 6) * 255 / 3 << 16 | (sample >> 3 & 7) * 255 / 7 << 8 | (sample & 7) * 255 / 7) >>> 0);

export class Picture {
  constructor(canvas) {
    canvas.width = WIDTH;
    canvas.height = HEIGHT;
    this.context = canvas.getContext('2d');
    this.image = this.context.createImageData(WIDTH, HEIGHT);
    this.points = new Uint32Array(this.image.data.buffer);
    this.rows = new Uint8Array(SAMPLES * ROWS);
    this.count = 0;
  }

  // Reads records: keeps the rows, and gives the sound of each, and how many frames ended.
  take(records) {
    const sounds = [];
    let ended = 0;
    for (let at = 0; at < records.length;) {
      const first = records[at + 1] | records[at + 2] << 8, second = records[at + 3] | records[at + 4] << 8;
      if (records[at] === 0x46) { // F: a frame's number and its rows
        this.count = second;
        ended++;
        at += 5;
      } else { // R: a row's number and its samples, and a sound
        if (first < ROWS) this.rows.set(records.subarray(at + 5, at + 5 + SAMPLES), first * SAMPLES);
        sounds.push(records[at + 5 + SAMPLES]);
        at += 6 + SAMPLES;
      }
    }
    return { sounds, ended };
  }

  // Draws the last frame. One with more than 262 rows has half lines, of which a third follow the broad pulses.
  draw() {
    const first = BLANK + (this.count > 262 ? Math.trunc((this.count - 262) / 3) : 0);
    for (let y = 0; y < HEIGHT; y++) {
      const row = first + y, from = row * SAMPLES + LEFT, is = row < Math.min(this.count, ROWS);
      for (let x = 0; x < WIDTH; x++) this.points[y * WIDTH + x] = is ? PALETTE[this.rows[from + x]] : 0xff000000;
    }
    this.context.putImageData(this.image, 0, 0);
  }
}
