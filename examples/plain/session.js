#!/usr/bin/env node
// A client of canvasd: session.js PORT [EDITS]. Plays a first session with a server that nobody has joined, and checks each answer;
// then sends so many edits (1000), each followed by an ask, and prints how many round trips it made a second.
// Needs Debian's node-ws (NODE_PATH=/usr/share/nodejs).
"use strict";
const assert = require("assert");
const WebSocket = require("ws");

// What is sent, and the messages of its answer.
const SESSION = [
  [["join", 2], [["welcome", 1]]],
  [["ask", 1, 0], [["entry", 1, [0, 0, "join", ["joined", 1]]], ["idle"]]],
  [["edit", 1, 1, ["create", [1, 1], "page", [[0, 0], "O"]]], [["idle"]]],
  [["edit", 1, 1, ["create", [1, 1], "page", [[0, 0], "O"]]], [["idle"]]],
  [["edit", 1, 3, ["delete", [1, 1]]], [["no", 3]]],
  [
    ["ask", 1, 1],
    [["entry", 2, [1, 1, ["create", [1, 1], "page", [[0, 0], "O"]], ["created", [[0, 0], "O"]]]], ["idle"]],
  ],
  [["ask", 7, 0], [["no", 1]]],
];
const LAST = new Set(["welcome", "idle", "no"]);

const port = Number(process.argv[2]);
const edits = Number(process.argv[3] || 1000);
const socket = new WebSocket(`ws://127.0.0.1:${port}/`, { perMessageDeflate: false });

// Sends a message, and gives the messages of its answer, in order.
function roundTrip(message) {
  return new Promise((resolve, reject) => {
    const answer = [];
    const hear = (bytes) => {
      answer.push(JSON.parse(bytes));
      if (LAST.has(answer[answer.length - 1][0])) {
        socket.off("message", hear);
        socket.off("close", reject);
        resolve(answer);
      }
    };
    socket.on("message", hear);
    socket.on("close", reject);
    socket.send(Buffer.from(JSON.stringify(message)));
  });
}

// Checks that an answer tells this entry: by itself, or in a copy of the document, where the server has made a checkpoint meanwhile.
function checkTells([first, ...rest], version, entry) {
  assert.deepStrictEqual(rest, [["idle"]]);
  if (first[0] === "copy") {
    assert.deepStrictEqual(first.slice(1, 3), [version, entry[1]]);
  } else {
    assert.deepStrictEqual(first, ["entry", version, entry]);
  }
}

async function play() {
  for (const [message, wanted] of SESSION) {
    assert.deepStrictEqual(await roundTrip(message), wanted);
  }
  const start = process.hrtime.bigint();
  for (let k = 0; k < edits; k += 1) {
    const change = ["set", [1, 1], "n", k];
    assert.deepStrictEqual(await roundTrip(["edit", 1, 2 + k, change]), [["idle"]]);
    checkTells(await roundTrip(["ask", 1, 2 + k]), 3 + k, [1, 2 + k, change, ["wasset"]]);
  }
  const seconds = Number(process.hrtime.bigint() - start) / 1e9;
  console.log(`${edits} edits and asks: ${Math.round((2 * edits) / seconds)} round trips a second`);
}

socket.on("open", () =>
  play().then(
    () => socket.close(),
    (error) => {
      console.error(error);
      process.exit(1);
    },
  ),
);
