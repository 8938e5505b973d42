// Draws what page_trace.js follows: the list of steps, of which only the rows that are seen are made, and the moment after a step.
'use strict';

const ROW_HIGH = 22;
const MOST_WRITES = 16;
const MOST_SLOTS = 32;
const OWNERS = {
    sender: "the sender's", flight: 'in flight', landed: 'landed', receiver: "the receiver's", back: 'on its way back', none: 'no session',
};
const KINDS = {
    field: 'bytes, length, version', flag: 'flags', bell: 'doorbell', index: 'index word back', pad: 'scratchpad', raw: 'poked bytes',
};

const find = id => document.getElementById(id);

// An element with a class, and in it texts and elements.
function make(tag, name, ...inner) {
    const element = document.createElement(tag);
    if (name) element.className = name;
    element.append(...inner);
    return element;
}

// The list of steps: a row for each line of the script, and one for each answer under it.

class StepList {
    constructor(trace, box, choose) {
        this.trace = trace;
        this.box = box;
        this.inner = box.firstElementChild;
        this.rows = trace.script.length + trace.steps;
        this.inner.style.height = `${this.rows * ROW_HIGH}px`;
        box.addEventListener('scroll', () => this.draw());
        box.addEventListener('click', event => {
            const row = event.target.closest('[data-count]');
            if (row) choose(Number(row.dataset.count));
        });
        window.addEventListener('resize', () => this.count === undefined ? this.draw() : this.show(this.count, this.pair));
    }

    // The row of a step, and the line or step of a row.
    rowOf(step) {
        return this.trace.lineOf[step] + step;
    }

    atRow(row) {
        let low = 1, high = this.trace.script.length;
        while (low < high) {
            const middle = (low + high + 1) >> 1;
            if (middle - 1 + this.trace.stepsUpTo[middle - 1] <= row) low = middle; else high = middle - 1;
        }
        const first = low - 1 + this.trace.stepsUpTo[low - 1];
        return row === first ? {line: low} : {line: low, step: row - low};
    }

    show(count, pair) {
        this.count = count;
        this.pair = pair;
        const row = count ? this.rowOf(count - 1) : 0, y = row * ROW_HIGH;
        if (y < this.box.scrollTop + ROW_HIGH || y > this.box.scrollTop + this.box.clientHeight - 3 * ROW_HIGH)
            this.box.scrollTop = y - this.box.clientHeight / 3;
        if (count) this.box.setAttribute('aria-activedescendant', `step-${count}`);
        else this.box.removeAttribute('aria-activedescendant');
        this.draw();
    }

    draw() {
        const first = Math.max(0, Math.floor(this.box.scrollTop / ROW_HIGH) - 5);
        const last = Math.min(this.rows - 1, first + Math.ceil(this.box.clientHeight / ROW_HIGH) + 10);
        const rows = [];
        for (let row = first; row <= last; row++) {
            const {line, step} = this.atRow(row);
            const element = step === undefined ? this.lineRow(line) : this.stepRow(line, step);
            element.style.top = `${row * ROW_HIGH}px`;
            rows.push(element);
        }
        this.inner.replaceChildren(...rows);
    }

    lineRow(line) {
        const text = this.trace.script[line - 1], refused = this.trace.refusal && this.trace.refusal.line === line;
        const last = this.trace.stepsUpTo[line], has = last > this.trace.stepsUpTo[line - 1];
        const row = make('div', 'row line', make('span', 'number', String(line)), make('span', 'text', text));
        row.setAttribute('role', 'presentation');
        row.title = cut(text);
        if (/^ *#/.test(text)) row.classList.add('comment');
        if (has) row.dataset.count = last;
        if (refused) row.classList.add('refused');
        return row;
    }

    stepRow(line, index) {
        const step = this.trace.step(index), count = index + 1, answer = answerText(step);
        const named = this.trace.script[line - 1].trim().split(' ')[0] === step.step.name ? '' : step.step.name;
        const row = make('div', 'row step', make('span', 'name', named), make('span', 'text', answer));
        row.id = `step-${count}`;
        row.title = `${stepText(step)}: ${answer}`;
        row.dataset.count = count;
        row.setAttribute('role', 'option');
        row.setAttribute('aria-selected', count === this.count);
        row.setAttribute('aria-setsize', this.trace.steps);
        row.setAttribute('aria-posinset', count);
        if (isRefused(step)) row.classList.add('refused');
        if (step.answer.name === 'frame') row.classList.add('frame');
        if (count > this.count) row.classList.add('later');
        if (step.step.pair !== this.pair) row.classList.add('other');
        return row;
    }
}

// What is said of a step

function writeText(pair, side, number) {
    return `write ${number} (${pair.labels[side][number]})`;
}

// What a step changed, in words.
function changeText(pair, {step, answer, write, passed, waits_for: before, link, session, dropped}) {
    if (link !== undefined) {
        const lost = dropped ? dropped.A.length + dropped.B.length : 0;
        return `the link is ${link}${link === 'up' ? `, session ${session}` : ''}${lost ? `; lost in flight: ${lost}` : ''}`;
    }
    if (write === null) return 'lost as it was posted';
    if (write === undefined) return '';
    const about = writeText(pair, step.side, write);
    if (before !== undefined) return `${about} may not pass ${writeText(pair, step.side, before)}`;
    if (answer.name === 'landed') return `${about} has landed${passed ? `, past ${passed} earlier` : ''}`;
    return `${about} is in flight`;
}

// What is said of writes in flight of a side: by the step that was made last, and by the next one.
function marksOf(flight, last, next, side, pairName) {
    const marks = new Map();
    const concerns = step => step && step.step.pair === pairName && step.step.side === side && step.step.name === 'land';
    const add = (number, text, look) => marks.set(number, [...(marks.get(number) || []), [text, look]]);
    if (concerns(last) && last.waits_for !== undefined) {
        add(last.write, `may not pass ${last.waits_for}`, 'refused');
        add(last.waits_for, `stops ${last.write}`, 'refused');
    } else if (concerns(last) && last.passed)
        for (const number of flight.slice(0, last.passed)) add(number, `passed by ${last.write}`, 'passed');
    if (concerns(next) && next.waits_for !== undefined) {
        add(next.write, 'next, and blocked', 'refused');
        add(next.waits_for, `stops ${next.write} next`, 'refused');
    } else if (concerns(next) && typeof next.write === 'number') {
        add(next.write, 'lands next', 'next');
        for (const number of flight.slice(0, next.passed)) add(number, `is passed by ${next.write} next`, 'passed');
    }
    return marks;
}

// The moment after a step

function drawSide(pair, now, name) {
    const side = now.sides[name], facts = [], tell = (...inner) => facts.push(make('div', '', ...inner));
    const fact = (word, is) => make('span', is ? 'fact yes' : 'fact no', is ? word : `not ${word}`);
    const pending = side.pending.slice().sort((a, b) => a - b), pads = Object.entries(side.pads);
    const masked = Array.from({length: 32}, (_, bit) => bit).filter(bit => side.masked >>> bit & 1);
    tell(fact('enabled', side.enabled), fact('clean', side.clean), fact('up', side.up));
    for (const text of queueTexts(side.queues)) tell(text);
    tell(pending.length ? `doorbells pending: ${pending.join(', ')}` : 'no doorbell pending');
    if (masked.length) tell(`doorbells masked: ${masked.join(', ')}`);
    if (pads.length) tell('scratchpads: ', ...pads.map(([index, value]) => make('span', 'fact', `${index}: ${value}`)));
    return make('section', `side ${name}`, make('h3', '', `side ${name}, host ${pair.hosts[name]}`), ...facts);
}

// Queues that stand alike are said together.
function queueTexts(queues) {
    const texts = [], stateOf = queue => ['ready', 'joined', 'closed'].filter(word => queue[word]).join(', ');
    for (let from = 0, to; from < queues.length; from = to + 1) {
        to = from;
        while (to + 1 < queues.length && stateOf(queues[to + 1]) === stateOf(queues[from])) to++;
        texts.push(`${from === to ? `queue ${from}` : `queues ${from} to ${to}`}: ${stateOf(queues[from]) || 'not ready'}`);
    }
    return texts;
}

// The writes of a side in flight, the first posted furthest on its way; of many only those around the one that is spoken of.
function drawFlight(pair, now, side, last, next) {
    const flight = now.sides[side].flight, marks = marksOf(flight, last, next, side, pair.pair);
    const isPost = last && last.step.pair === pair.pair && last.step.side === side && POSTS.has(last.step.name);
    const posted = isPost ? last.write : undefined;
    const about = Math.max(0, flight.indexOf([...marks.keys()].shift() ?? posted ?? flight[0]));
    const from = Math.max(0, Math.min(about - MOST_WRITES / 2, flight.length - MOST_WRITES));
    const shown = flight.slice(from, from + MOST_WRITES), rows = drawEnded(pair, side, last);
    if (from) rows.push(make('li', 'more', `${from} earlier writes`));
    for (const [i, number] of shown.entries())
        rows.push(drawWrite(pair.labels[side][number], number, from + i, flight.length, marks.get(number) || []));
    if (from + shown.length < flight.length) rows.push(make('li', 'more', `${flight.length - from - shown.length} later writes`));
    const list = make('ol', `flight from-${side}`, ...rows);
    const head = make('h3', '', `${side} to ${peerOf(side)}: ${flight.length ? `${flight.length} in flight` : 'nothing in flight'}`);
    return make('div', 'direction', head, list);
}

function drawWrite(label, number, place, all, marks) {
    const row = make('li', 'write');
    const words = make('span', 'words', make('b', '', String(number)), ` ${label}`, ...marks.map(([text, look]) => make('em', look, text)));
    const line = make('span', `way ${kindOf(label)}`);
    line.style.width = `${10 * (9 * all - 8 * place) / all}%`;
    row.append(words, line);
    return row;
}

// The writes that the last step landed, lost as it posted them, or dropped.
function drawEnded(pair, side, last) {
    if (!last || last.step.pair !== pair.pair) return [];
    const labels = pair.labels[side];
    if (last.dropped) return last.dropped[side].slice(0, MOST_WRITES).map(number => drawEnd(number, labels[number], 'lost'));
    if (last.step.side !== side) return [];
    if (last.write === null) return [drawEnd('', postedLabel(last), 'lost')];
    return last.answer.name === 'landed' ? [drawEnd(last.write, labels[last.write], 'landed')] : [];
}

function drawEnd(number, label, how) {
    const mark = how === 'landed' ? make('em', 'next', 'has landed') : make('em', 'refused', 'lost');
    return make('li', 'write', make('span', 'words', make('b', '', String(number)), ` ${label}`, mark),
        make('span', `way ${how} ${kindOf(label)}`));
}

// A ring: its slots with their owners, and the index word in the sender's memory.
function drawRing(pair, now, side, queue, before) {
    const lane = now.sides[side].lanes[queue], name = `${side}>${peerOf(side)}${queue ? ` q${queue}` : ''}`;
    const many = lane.entries > MOST_SLOTS, slots = [];
    const first = many ? lane.freed : 0;
    const count = many ? Math.min(MOST_SLOTS, Math.max(lane.sent - lane.freed, 1)) : lane.entries;
    for (let i = 0; i < count; i++) {
        const slot = (first + i) % lane.entries, [owner, entry] = ownerOf(lane, slot, now.link);
        const key = `${name} ${slot}`, changed = before.has(key) && before.get(key) !== owner;
        const box = make('span', `slot ${owner}${changed ? ' changed' : ''}`, owner === 'sender' || owner === 'none' ? '' : String(entry));
        const item = make('li', '', make('small', '', String(slot)), box);
        item.title = `slot ${slot}: ${OWNERS[owner]}${box.textContent && `, entry ${entry}`}`;
        item.setAttribute('aria-label', item.title);
        slots.push(item);
        before.set(key, owner);
    }
    const about = `${lane.entries} slots${many ? `, drawn from the oldest entry on, ${MOST_SLOTS} at most` : ''}`;
    return make('div', 'ring', make('h3', '', name), make('ol', 'slots', ...slots),
        make('p', '', `${about}; side ${side}'s index word says ${lane.word}`));
}

function drawRings(pair, now, before) {
    if (pair.raw) return [make('p', '', 'The slots of a raw pair are not drawn: bytes are written past the transport.')];
    const rings = [];
    for (const side of SIDES)
        for (const queue of [...pair.used[side]].sort((a, b) => a - b)) rings.push(drawRing(pair, now, side, queue, before));
    return rings.length ? rings : [make('p', '', 'No frame is begun on this pair.')];
}

function legend(pair) {
    const kinds = Object.entries(KINDS).filter(([kind]) => pair.kinds.has(kind)), owners = pair.raw ? [] : Object.entries(OWNERS);
    return [
        ...kinds.map(([kind, text]) => make('li', '', make('span', `way ${kind}`), text)),
        ...owners.map(([owner, text]) => make('li', '', make('span', `slot ${owner}`), text)),
        make('li', 'refused', 'red: refused, nothing changed'),
    ];
}

// The counts at a trace's end, as a report says them.
function countText({lane, session, accepted, delivered, device, tx, tx_bytes: txBytes, refused, rx, rx_bytes: rxBytes, short}) {
    if (lane) return `lane ${lane.pair} ${lane.side} ${lane.queue} ${session} accepted ${accepted} delivered ${delivered}`;
    return `dev ${device} tx ${tx} ${txBytes} ${refused} rx ${rx} ${rxBytes} ${short}`;
}
