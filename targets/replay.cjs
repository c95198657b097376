// Runs replay.c on WebAssembly: `node replay.cjs FILE`, frames on standard input, lines on standard output.
'use strict'
const fs = require('fs')

const frames = fs.readFileSync(0)
let memory

const env = {
  read(to, most) {
    const count = Math.min(most, frames.length)
    new Uint8Array(memory.buffer, to, count).set(frames.subarray(0, count))
    return count
  },
  write(from, count) {
    const bytes = new Uint8Array(memory.buffer, from, count)
    for (let done = 0; done < count;) done += fs.writeSync(1, bytes, done)
  },
}

const program = new WebAssembly.Module(fs.readFileSync(process.argv[2]))
const calls = new WebAssembly.Instance(program, { env }).exports
memory = calls.memory
calls.run()
