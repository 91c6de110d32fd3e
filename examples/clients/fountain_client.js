#!/usr/bin/env node
// A client of `fountain desk` that keeps a copy of the text in step; docs/PROTOCOL.md says by which rules.
//
//     fountain_client.js FILE COPY      asks the commands of standard input, tells their replies, and writes the text that it kept to COPY
//
// As a module it gives Desk, which asks the program, and Text, the lines of a script. The program is `fountain` on the path.
"use strict";

const fs = require("fs");
const { spawn } = require("child_process");

// What ends a line of a script, and what is dropped from each line: control characters but the tab, and U+FEFF.
const LINE_END = /\r\n|\r|\n/;
const DROPPED = /[\u0000-\u0008\u000a-\u001f\u007f-\u009f\ufeff]/g;
const kept = (text) => text.replace(DROPPED, "");

// The bytes of a file; none where it can't be read, which the program tells.
function bytesOf(file) {
    try {
        return fs.readFileSync(file);
    } catch {
        return Buffer.alloc(0);
    }
}

// The lines of a script's bytes.
function linesOf(script) {
    const lines = new TextDecoder("utf-8", { fatal: true, ignoreBOM: true }).decode(script).split(LINE_END);
    if (!lines.at(-1)) lines.pop();
    return lines.map(kept);
}

// The lines of a stream, cut at line feeds alone; what follows the last one is a line where it has a byte.
async function* linesIn(stream) {
    let pieces = [];
    for await (let chunk of stream) {
        for (let end; (end = chunk.indexOf("\n")) >= 0; chunk = chunk.subarray(end + 1)) {
            yield Buffer.concat([...pieces, chunk.subarray(0, end)]);
            pieces = [];
        }
        if (chunk.length) pieces.push(chunk);
    }
    if (pieces.length) yield Buffer.concat(pieces);
}

// The lines of a script, and what its undos and redos bring back.
class Text {
    constructor(lines) {
        Object.assign(this, { lines, done: [], undone: [] });
    }

    bytes() {
        return Buffer.from(this.lines.map((line) => line + "\n").join(""));
    }

    exchange({ first, count, lines }) {
        return { first, count: lines.length, lines: this.replace(first, count, lines) };
    }

    replace(first, count, lines) {
        const old = this.lines.slice(first, first + count);
        this.lines = this.lines.slice(0, first).concat(lines, this.lines.slice(first + count));
        return old;
    }

    spliced({ line, from, to, text }) {
        const bytes = Buffer.from(this.lines[line]);
        return Buffer.concat([bytes.subarray(0, from), Buffer.from(kept(text)), bytes.subarray(to)]).toString();
    }

    edit(change) {
        this.done.push(this.exchange(change));
        this.undone = [];
    }

    // Does what an accepted command did.
    follow(command) {
        switch (command.do) {
            case "replace":
                return this.edit({ first: command.first, count: command.count, lines: command.lines.map(kept) });
            case "splice":
                return this.edit({ first: command.line, count: 1, lines: [this.spliced(command)] });
            case "undo":
                return this.undone.push(this.exchange(this.done.pop()));
            case "redo":
                return this.done.push(this.exchange(this.undone.pop()));
            // After these nothing can be undone, nor made again.
            case "lock_scenes": case "lock_pages": case "next_round": case "speakers": case "paper":
                this.done = [];
                this.undone = [];
        }
    }
}

// The program over a file, asked one line at a time, and the text that it has.
class Desk {
    // A desk whose program has opened the file, or has ended since it can't.
    static async open(file) {
        for (;;) {
            const script = bytesOf(file);
            const desk = new Desk(file);
            // The program has read the file once it answers a line, be it an empty one.
            desk.isOpen = (await desk.answer("")) !== undefined;
            // Where the file changed meanwhile, nobody knows which of the two texts the program has.
            if (!desk.isOpen || script.equals(bytesOf(file))) {
                desk.text = new Text(desk.isOpen ? linesOf(script) : []);
                return desk;
            }
            await desk.end();
        }
    }

    constructor(file) {
        this.program = spawn("fountain", ["desk", file], { stdio: ["pipe", "pipe", "inherit"] });
        this.program.on("error", () => stop("fountain isn't on the path", 1));
        this.ended = new Promise((resolve) => this.program.on("close", resolve));
        this.program.stdin.on("error", () => {}); // the program has ended
        this.replies = linesIn(this.program.stdout);
    }

    // The reply to a line, without its line feed; undefined where the session has ended.
    async answer(line) {
        this.program.stdin.write(line);
        this.program.stdin.write("\n");
        return (await this.replies.next()).value;
    }

    // The reply to a command line; what an accepted one did is done to the text too.
    async ask(line) {
        const reply = await this.answer(line);
        if (reply && JSON.parse(reply).ok) this.text.follow(JSON.parse(line));
        return reply;
    }

    // The status of the program, once its input has ended.
    end() {
        this.program.stdin.end();
        return this.ended;
    }
}

function stop(why, status) {
    console.error(`fountain_client.js: ${why}`);
    process.exit(status);
}

async function main(file, copy) {
    const desk = await Desk.open(file);
    if (!desk.isOpen) return desk.end();
    for await (const line of linesIn(process.stdin)) {
        const reply = await desk.ask(line);
        if (reply) console.log(reply.toString());
    }
    fs.writeFileSync(copy, desk.text.bytes());
    return desk.end();
}

module.exports = { Desk, Text, linesOf };
if (require.main === module) {
    if (process.argv.length !== 4) stop("usage: fountain_client.js FILE COPY", 2);
    main(...process.argv.slice(2)).then((status) => (process.exitCode = status));
}
