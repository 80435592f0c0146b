// Random calls of fs/promises, so many at a time: UV_USE_IO_URING=1 node node_random.js SEED COUNT AT_ONCE
const fs = require('fs/promises');

let state = Number(process.argv[2]) | 0;
const count = Number(process.argv[3]);
const atOnce = Number(process.argv[4]);

function random(below) {
  state = (Math.imul(state, 1103515245) + 12345) | 0;
  return ((state >>> 8) & 0xffff) % below;
}

const folders = ['.', 'd', 'd/e', 'g'];
const names = ['a', 'b', 'c', 'x'];
const flags = ['r', 'r+', 'w', 'w+', 'a', 'a+', 'wx', 'ax'];
const open = [];

const path = () => `${folders[random(4)]}/${names[random(4)]}`;
const folder = () => folders[1 + random(3)];
const offset = (below) => (random(2) ? null : random(below));

// Calls on a file that is open, one of which is chosen.
const onFile = [
  (file) => file.write(Buffer.alloc(random(3000), 65 + random(26)), 0, undefined, offset(9000)),
  (file) => file.read(Buffer.alloc(random(5000) + 1), 0, undefined, offset(9000)),
  (file) => file.writev([Buffer.alloc(random(50), 'v'), Buffer.alloc(random(5000), 'w')], offset(7000)),
  (file) => file.sync(),
  (file) => file.truncate(random(8000)),
];

// Calls by name, one of which is chosen.
const onName = [
  async () => open.length < 6 && open.push(await fs.open(path(), flags[random(8)])),
  async () => open.length && open.splice(random(open.length), 1)[0].close(),
  () => fs.mkdir(folder()),
  () => fs.rename(path(), path()),
  () => fs.link(path(), path()),
  () => fs.unlink(path()),
  () => fs.writeFile(path(), 'z'.repeat(random(6000))),
  () => fs.appendFile(path(), 'q'.repeat(random(600))),
  () => fs.rename(folder(), folder() + (random(2) ? '/y' : '')),
];

async function call() {
  try {
    if (open.length && random(2)) {
      await onFile[random(onFile.length)](open[random(open.length)]);
    } else {
      await onName[random(onName.length)]();
    }
  } catch (error) {
    // (many of them fail, and shall)
  }
}

async function main() {
  for (let done = 0; done < count; done += atOnce) {
    await Promise.all(Array.from({ length: atOnce }, call));
  }
}

main();
