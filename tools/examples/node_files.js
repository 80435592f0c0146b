// Each kind of file call that Node makes through io_uring: UV_USE_IO_URING=1 node node_files.js
const fs = require('fs/promises');

async function fails(call) {
  try {
    await call;
  } catch (error) {
    return;
  }
  throw new Error('a call did not fail');
}

async function oneFile(path) {
  const file = await fs.open(path, 'r+');
  await file.write('XYZ', 10);
  await file.read(Buffer.alloc(50), 0, 50, 0);
  await file.writev([Buffer.from('ab'), Buffer.from('cde')], 100);
  await file.datasync();
  await file.sync();
  await file.truncate(300);
  await file.stat();
  await file.close();
}

async function main() {
  await fs.mkdir('d');
  const writes = [];
  for (let i = 0; i < 8; i++) {
    writes.push(fs.writeFile(`d/f${i}`, `line ${i}\n`.repeat(100 + i)));
  }
  await Promise.all(writes);
  await fs.appendFile('d/f3', 'tail\n');
  await fs.readFile('d/f3');
  await fs.rename('d/f1', 'd/g1');
  await fs.link('d/f2', 'd/h2');
  await fs.copyFile('d/f4', 'd/c4');
  await fs.unlink('d/f5');
  await oneFile('d/f6');
  await fails(fs.readFile('missing'));
  await fails(fs.mkdir('d'));
  await fs.rm('d/f7');
  await fs.readdir('d');
}

main();
