// What a page knows: the script, the trace of its steps, and what stands on each pair after so many steps. Nothing is worked out
// here that the trace doesn't say, but counts of what it said: `page.py` puts this file into a page.
'use strict';

const SIDES = ['A', 'B'];
const peerOf = side => side === 'A' ? 'B' : 'A';

// Texts

// The words of an object of the trace, as they stand in a report: its name, then its members in order.
function wordsOf(object) {
    const words = [];
    for (const value of Object.values(object)) {
        if (value === null) words.push('-');
        else if (typeof value === 'object') words.push(...wordsOf(value));
        else words.push(value === '' ? '-' : String(value));
    }
    return words;
}

// A text in which each payload of more than 16 bytes shows its first 12 alone, as in a listing.
const cut = text => text.replace(/[0-9A-Fa-f]{33,}/g, word => `${word.slice(0, 24)}..(${word.length >> 1} bytes)`);

const stepText = step => cut(wordsOf(step.step).join(' '));
const answerText = step => cut(wordsOf(step.answer).join(' '));

const isRefused = step => !step.made;

// The label of a write as far as the step that posted it says it; of a scratchpad of the handshake its landing says the rest.
function postedLabel(step) {
    const {name, queue, index, value, window: through, offset, bytes} = step.step;
    if (name === 'post') return wordsOf(step.answer.label).join(' ');
    if (name === 'ack') return `index ${queue} ${step.answer.number}`;
    if (name === 'offer') return `pad ${step.answer.index} ..`;
    if (name === 'ready') return `pad .. (queue ${queue} is ready)`;
    if (name === 'spad') return `pad ${index} ${value}`;
    return `raw ${through} ${offset} ${bytes.length / 2}`;
}

const POSTS = new Set(['post', 'ack', 'offer', 'ready', 'spad', 'poke']);
const BEGINS = new Set(['begin', 'xbegin', 'xnext', 'qpdown']);

// The kind of a write, which says the line that it is drawn with.
function kindOf(label) {
    const word = label.split(' ')[0];
    if (word === 'chunk' || word === 'len' || word === 'ver') return 'field';
    return word === 'down' ? 'flag' : word;
}

// The trace

class Trace {
    constructor(scriptText, traceText) {
        this.script = scriptText.split('\n');
        if (this.script[this.script.length - 1] === '') this.script.pop();
        this.pairs = new Map();
        this.texts = [];
        this.counts = [];
        for (const line of traceText.split('\n')) {
            if (line.startsWith('{"line":')) this.texts.push(line);
            else if (line.startsWith('{"pair":')) this.addPair(JSON.parse(line));
            else if (line.startsWith('{"lane":') || line.startsWith('{"device":')) this.counts.push(JSON.parse(line));
            else if (line.startsWith('refused line ')) this.addRefusal(line.split(' '));
            else if (line === '{"end":true}') this.isWhole = true;
        }
        this.steps = this.texts.length;
        this.readSteps();
        this.keepStates();
    }

    addRefusal(words) {
        this.refusal = {line: Number(words[2]), cause: words[3]};
    }

    addPair(pair) {
        pair.labels = {A: [], B: []};
        pair.used = {A: new Set(), B: new Set()};
        pair.kinds = new Set();
        pair.hosts = {A: '', B: ''};
        this.pairs.set(pair.pair, pair);
    }

    step(index) {
        return JSON.parse(this.texts[index]);
    }

    // The comment directly above a line, without its conditions.
    commentAbove(line) {
        const texts = [];
        for (let at = line - 2; at > 0 && /^ *#/.test(this.script[at]); at--)
            if (!/^ *#[=!]/.test(this.script[at])) texts.unshift(this.script[at].replace(/^ *# */, ''));
        return texts.join(' ');
    }

    // One look at all steps: their lines, the labels of their writes, and the lanes that they use.
    readSteps() {
        this.lineOf = new Int32Array(this.steps);
        this.stepsUpTo = new Int32Array(this.script.length + 2);
        for (let i = 0; i < this.steps; i++) {
            const step = this.step(i), pair = this.pairs.get(step.step.pair);
            this.lineOf[i] = step.line;
            this.stepsUpTo[step.line]++;
            if (pair) this.readStep(pair, step);
        }
        for (let line = 1; line < this.stepsUpTo.length; line++) this.stepsUpTo[line] += this.stepsUpTo[line - 1];
        for (const text of this.script) {
            const words = text.trim().split(/ +/);
            if (words[0] === 'pair' && this.pairs.has(words[1])) this.pairs.get(words[1]).hosts = {A: words[2], B: words[3]};
        }
    }

    readStep(pair, {step, answer, write}) {
        if (typeof write === 'number') {
            const labels = pair.labels[step.side];
            if (answer.name === 'landed') labels[write] = wordsOf(answer.label).join(' ');
            else if (POSTS.has(step.name)) labels[write] = postedLabel({step, answer});
            pair.kinds.add(kindOf(labels[write]));
        }
        if (BEGINS.has(step.name) && answer.name === 'ok') pair.used[step.side].add(step.queue);
        if (answer.name === 'ready' && step.name === 'look') pair.used[peerOf(step.side)].add(step.queue);
    }

    // What stands on each pair, kept at so many places that any other is a few hundred steps from one.
    keepStates() {
        this.every = Math.max(250, Math.ceil(this.steps / 200));
        this.kept = [];
        const now = {};
        for (const [name, pair] of this.pairs) now[name] = startOf(pair);
        for (let i = 0; i < this.steps; i++) {
            if (i % this.every === 0) this.kept.push(structuredClone(now));
            this.make(now, i);
        }
        this.now = structuredClone(this.kept[0] || now);
        this.at = 0;
    }

    make(now, index) {
        const step = this.step(index), name = step.step.pair;
        if (name in now) follow(now[name], step);
    }

    // What stands on all pairs after so many steps.
    after(count) {
        const near = Math.min(Math.floor(count / this.every), Math.max(this.kept.length - 1, 0));
        if (count < this.at || near * this.every > this.at) {
            this.now = structuredClone(this.kept[near] || this.now);
            this.at = near * this.every;
        }
        for (; this.at < count; this.at++) this.make(this.now, this.at);
        return this.now;
    }
}

// What stands on a pair

// A lane: how many of its entries were begun, have their flags landed, were copied, had their index write posted, and landed; the
// index word; and how many parts each entry has that isn't given back.
function freshLane(entries, isSet) {
    return {entries, sent: 0, flagged: 0, got: 0, acked: 0, freed: 0, word: isSet ? entries - 1 : 0, looked: null, parts: {}};
}

// The start of a pair: one that is declared up is as after a whole handshake.
function startOf(pair) {
    const sides = {};
    for (const side of SIDES) {
        const queues = Array.from({length: pair[side].queues}, () => ({ready: pair.up, joined: pair.up, closed: false}));
        sides[side] = {
            enabled: pair.up, clean: true, up: pair.up, queues, pads: {}, pending: [], masked: 0, flight: [],
            lanes: pair[side].rings.map(ring => freshLane(ring.entries, pair.up)),
        };
    }
    return {link: pair.up ? 'up' : 'down', session: pair.up ? 1 : 0, sides};
}

// What a step changes on its pair: the link, the writes in flight, the sides, the lanes.
function follow(now, step) {
    followLink(now, step);
    if (step.step.side === undefined) return;
    followFlight(now, step);
    followSide(now, step);
    if (step.answer.name === 'landed') followLanding(now, step);
    else if (step.step.queue !== undefined) followLane(now, step);
}

function followLink(now, {step, answer, link, session, dropped}) {
    if (link === undefined) return;
    now.link = link;
    now.session = session;
    for (const name of SIDES) {
        const side = now.sides[name];
        if (dropped) side.flight = [];
        if (link === 'down') side.enabled = side.clean = false;
        if (step.name === 'train') side.lanes = side.lanes.map(lane => ({...freshLane(lane.entries), word: lane.word}));
    }
}

function followFlight(now, {step, answer, write}) {
    if (typeof write !== 'number') return;
    const flight = now.sides[step.side].flight;
    if (answer.name === 'landed') flight.splice(flight.indexOf(write), 1);
    else if (POSTS.has(step.name)) flight.push(write);
}

function followSide(now, {step, answer}) {
    const side = now.sides[step.side], queue = side.queues[step.queue];
    if (answer.name === 'ok') {
        if (step.name === 'enable') side.enabled = true;
        else if (step.name === 'clean') cleanSide(side);
        else if (step.name === 'ready') queue.ready = true;
        else if (step.name === 'qpdown') queue.closed = true;
        else if (step.name === 'mask') side.masked = (side.masked | step.bits) >>> 0;
        else if (step.name === 'unmask') side.masked = (side.masked & ~step.bits) >>> 0;
    } else if (answer.name === 'up') {
        side.up = true;
        for (const lane of side.lanes) lane.word = lane.entries - 1;
    } else if (answer.name === 'joined') queue.joined = true;
    else if (answer.name === 'peerdown') queue.closed = true;
    else if (answer.name === 'irq') side.pending = side.pending.filter(number => !(answer.bits >>> number & 1));
    else if (answer.name === 'pad') side.pads[step.index] = answer.value;
}

function cleanSide(side) {
    side.clean = true;
    side.up = false;
    side.pads = {};
    side.pending = [];
    for (const queue of side.queues) queue.ready = queue.joined = queue.closed = false;
}

// A landing: what it writes on the other side, or of an index write on the lane that comes from there.
function followLanding(now, {step, answer: {label}}) {
    const peer = now.sides[peerOf(step.side)], lane = now.sides[step.side].lanes[label.queue];
    if (label.name === 'pad') peer.pads[label.index] = label.value;
    else if (label.name === 'bell' && !peer.pending.includes(label.queue)) peer.pending.push(label.queue);
    else if (label.name === 'flag' || label.name === 'down') lane.flagged = Math.max(lane.flagged, label.number + 1);
    else if (label.name === 'index') {
        const back = peer.lanes[label.queue];
        back.freed = Math.max(back.freed, label.number + 1);
        back.word = label.number % back.entries;
        delete back.parts[label.number];
    }
}

// What an answer on a queue does to the lane that the side sends on, or to that which it receives on.
function followLane(now, {step, answer}) {
    const out = now.sides[step.side].lanes[step.queue], back = now.sides[peerOf(step.side)].lanes[step.queue];
    if (answer.name === 'ok' && BEGINS.has(step.name)) out.sent++;
    else if (answer.name === 'posted' && answer.label.number !== undefined) {
        out.sent = Math.max(out.sent, answer.label.number + 1);
        if (answer.label.name === 'chunk') out.parts[answer.label.number] = answer.label.part + 1;
    } else if (step.name === 'look' && answer.name === 'ready') back.looked = answer.number;
    else if (answer.name === 'copied' && answer.part + 1 === back.parts[answer.number]) back.got = answer.number + 1;
    else if (answer.name === 'frame' && back.looked !== null) back.got = back.looked + 1;
    else if (answer.name === 'cleared') back.got = Math.max(back.got, answer.number + 1);
    else if (answer.name === 'acked') back.acked = answer.number + 1;
}

// Who has a slot: the owner's word, and the number of the entry that stands there or comes there next.
function ownerOf(lane, slot, link) {
    const entry = slot + lane.entries * Math.ceil((lane.freed - slot) / lane.entries);
    if (link === 'down') return ['none', entry];
    if (entry >= lane.sent) return ['sender', entry];
    if (entry >= lane.flagged) return ['flight', entry];
    if (entry >= lane.got) return ['landed', entry];
    return [entry >= lane.acked ? 'receiver' : 'back', entry];
}
