// A tree of files is made, copied, looked at and taken away: UV_USE_IO_URING=1 node node_tree.js
const fs = require('fs/promises');
const { createReadStream, createWriteStream } = require('fs');
const { pipeline } = require('stream/promises');

async function main() {
  await fs.mkdir('a/b/c', { recursive: true });
  for (let i = 0; i < 6; i++) {
    await fs.writeFile(`a/b/f${i}`, 'x'.repeat(300 * (i + 1)));
  }
  await fs.cp('a', 'z', { recursive: true });
  await pipeline(createReadStream('a/b/f5', { highWaterMark: 512 }), createWriteStream('a/b/c/copy'));
  for (const name of await fs.readdir('z/b')) {
    await fs.stat(`z/b/${name}`);
  }
  await fs.symlink('f1', 'a/b/link');
  await fs.lstat('a/b/link');
  await fs.readFile('a/b/link');
  await fs.access('a/b/f1');
  await fs.rm('z', { recursive: true });
}

main();
