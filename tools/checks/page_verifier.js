#!/usr/bin/env node
// Runs the pure part of verifiers/verify.html without a browser.
//
//     tools/checks/page_verifier.js [--steps] < REQUESTS
//
// Each line is a request, as JSON: "words" are those of the command, and "input" is its standard input in hex, or
// "proof" is it as text. For each a line is printed, as JSON too: what the page tells, its status, and with --steps
// each step with its digests. The script is read out of the page as it stands there. It takes node.
"use strict";
const fs = require("fs");
const path = require("path");
const readline = require("readline");
const vm = require("vm");

const PAGE = path.join(__dirname, "..", "..", "verifiers", "verify.html");

function verifier() {
    const script = /<script>([^]*)<\/script>/.exec(fs.readFileSync(PAGE, "utf8"))[1];
    // It draws nothing where there is no document.
    vm.runInThisContext(script, {filename: PAGE});
    return globalThis.LineageVerifier;
}

function shownSteps(steps, hex) {
    return steps.map(({check, title, passed, report, expected, found, digests}) => ({
        check, title, passed, report, expected, found,
        digests: digests.map((entry) => ({
            of: entry.name, digest: hex(entry.digest), expected: entry.expected && hex(entry.expected),
            text: entry.text.map(hex).join(""),
        })),
    }));
}

async function main() {
    const withSteps = process.argv[2] === "--steps";
    const {check, hex} = verifier();
    const lines = [];
    for await (const line of readline.createInterface({input: process.stdin})) {
        const request = JSON.parse(line);
        const input = request.proof === undefined ? Buffer.from(request.input, "hex") : Buffer.from(request.proof);
        const answer = check({words: request.words, input: new Uint8Array(input)});
        const shown = {told: answer.told, status: answer.status};
        if (withSteps) {
            shown.steps = shownSteps(answer.steps, hex);
            shown.proofs = answer.proofs.map((proof) => shownSteps(proof.look().steps, hex));
        }
        lines.push(JSON.stringify(shown));
        if (lines.length === 100) process.stdout.write(`${lines.splice(0).join("\n")}\n`);
    }
    if (lines.length) process.stdout.write(`${lines.join("\n")}\n`);
}

main();
