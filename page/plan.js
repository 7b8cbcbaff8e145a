'use strict';
// A plan, as `plan --json` gives it, as a graph: rounds that only repeat are folded into one, and each step has a place in a
// grid. No element of a page is made here.
const Plan = (() => {
  const setOf = (typeof Tables === 'undefined' ? require('./tables.js') : Tables).setOf;
  const ENDS = ['done', 'rolled-back', 'degraded-old', 'degraded-target'];
  const kindOf = step => step.call.split(' ')[0];
  // Which steps are drawn as which: a count after a round of starts that only repeats the one before it is the same count.
  const folded = plan => {
    const steps = new Map(plan.steps.map(step => [String(step.number), step]));
    const as = new Map();
    const same = (p, q) => p && q && p.master === q.master && p.call === q.call && p.set === q.set && p.edges.length === q.edges.length;
    const seen = name => { while (as.has(name)) name = as.get(name); return name; };
    const merge = (name, into) => {
      if (name === into || as.has(name)) return;
      const p = steps.get(name), q = steps.get(into);
      if (!same(p, q)) return;
      as.set(name, into);
      if (kindOf(p) !== 'census') p.edges.forEach((edge, i) => { if (edge.to !== q.edges[i].to) merge(edge.to, q.edges[i].to); });
    };
    const shortOf = step => step.edges.find(edge => edge.answers.includes('short'));
    const fullOf = step => step.edges.find(edge => edge.answers.includes('full'));
    // The count that ends the round which begins with a start.
    const nextCount = name => {
      for (let step = steps.get(name), left = plan.steps.length; step && left; step = steps.get(step.edges[0].to), left--) if (kindOf(step) === 'census') return step;
      return null;
    };
    let rounds = 0;
    for (const first of plan.steps) {
      if (kindOf(first) !== 'census' || as.has(String(first.number)) || !shortOf(first) || !steps.has(shortOf(first).to)) continue;
      let last = first, count = 0;
      for (let next = nextCount(shortOf(last).to); next && next !== last && next.call === first.call && next.set === first.set && fullOf(next) && fullOf(next).to === fullOf(first).to; next = nextCount(shortOf(last).to)) {
        as.set(String(next.number), String(first.number));
        count++;
        const isMore = shortOf(next) && steps.has(shortOf(next).to) && shortOf(next).to !== fullOf(next).to;
        if (isMore && same(steps.get(shortOf(next).to), steps.get(shortOf(first).to))) merge(shortOf(next).to, shortOf(first).to);
        last = next;
        if (!isMore) break;
      }
      rounds = Math.max(rounds, count);
    }
    return { at: seen, rounds };
  };
  // Arrows between places: A+B is a place of its own, and the ends of parts lead to the steps of the last line.
  const arrowsOf = (plan, at) => {
    const found = new Map();
    const add = (from, to, answers, isPlain, pid) => {
      const key = `${from}>${to}`;
      const arrow = found.get(key) || { from, to, answers: [], isPlain: false, pid: null };
      arrow.answers.push(...answers.filter(it => !arrow.answers.includes(it)));
      arrow.isPlain = arrow.isPlain || isPlain;
      arrow.pid = arrow.pid || pid;
      found.set(key, arrow);
    };
    const place = name => name.includes('+') ? name.split('+').map(at).join('+') : at(name);
    for (const step of plan.steps) step.edges.forEach((edge, i) => add(at(String(step.number)), place(edge.to), edge.answers, i === 0, edge.pid));
    const places = new Set([...found.values()].map(arrow => arrow.to));
    for (const name of places) if (name.includes('+')) for (const to of name.split('+')) add(name, to, [], true, null);
    if (!plan.join) return [...found.values()];
    for (const [name, to] of [['join-ready', plan.join.ready], ['join-back', plan.join.back]]) if (places.has(name)) add(name, at(String(to)), [], true, null);
    return [...found.values()];
  };
  // The arrows that lead back to a step on the way to themselves.
  const markBack = (nodes, first) => {
    const open = new Set(), closed = new Set();
    const visit = node => {
      open.add(node);
      for (const arrow of node.out) {
        const to = nodes.get(arrow.to);
        arrow.isBack = open.has(to);
        if (!arrow.isBack && !closed.has(to)) visit(to);
      }
      open.delete(node);
      closed.add(node);
    };
    visit(nodes.get(first));
  };
  const rank = node => ENDS.indexOf(node.name);
  // The way without a fault goes straight down on the left, and each fault leads one place to the right.
  const placed = rows => {
    for (const row of rows) {
      for (const node of row) {
        const near = node.into.filter(arrow => !arrow.isBack).map(arrow => arrow.source.column + (arrow.from.includes('+') ? arrow.source.out.indexOf(arrow) : arrow.isPlain ? 0 : 1));
        node.wanted = near.length ? Math.min(...near) : 0;
      }
      row.sort((p, q) => p.wanted - q.wanted || rank(p) - rank(q));
      let at = 0;
      for (const node of row) { node.column = Math.max(at, node.wanted); at = node.column + 1; }
    }
  };
  const layout = plan => {
    const { at, rounds } = folded(plan), arrows = arrowsOf(plan, at);
    const steps = new Map(plan.steps.map(step => [String(step.number), step]));
    const names = new Set(['1', ...arrows.flatMap(arrow => [arrow.from, arrow.to])]);
    const nodes = new Map([...names].map(name => [name, { name, step: steps.get(name), out: [], into: [], row: 0, column: 0 }]));
    for (const arrow of arrows) {
      arrow.source = nodes.get(arrow.from);
      arrow.target = nodes.get(arrow.to);
      arrow.source.out.push(arrow);
      arrow.target.into.push(arrow);
    }
    markBack(nodes, '1');
    const known = new Map();
    const rowOf = node => {
      if (!known.has(node)) known.set(node, Math.max(0, ...node.into.filter(it => !it.isBack).map(it => rowOf(it.source) + 1)));
      return known.get(node);
    };
    for (const node of nodes.values()) node.row = rowOf(node);
    const last = 1 + Math.max(...[...nodes.values()].filter(node => !ENDS.includes(node.name)).map(node => node.row));
    for (const name of ENDS) if (nodes.has(name)) nodes.get(name).row = last;
    const rows = Array.from({ length: last + 1 }, () => []);
    for (const node of nodes.values()) rows[node.row].push(node);
    placed(rows);
    return { nodes, arrows, rows, at, rounds };
  };
  const edgeOf = (step, answer) => {
    let [word] = answer.split(' ');
    if (word === 'counted') {
      const counted = setOf(answer.slice('counted '.length));
      word = [...setOf(step.set)].every(k => counted.has(k)) ? 'full' : 'short';
    }
    return step.edges.find(edge => edge.answers.includes(word));
  };
  // The places that a run passes, as they are drawn, and its arrows: each call takes the edge of its answer.
  const passed = (plan, calls, at) => {
    const steps = new Map(plan.steps.map(step => [String(step.number), step]));
    const seen = new Set([at('1')]), taken = new Set();
    const drawn = name => name.includes('+') ? name.split('+').map(at).join('+') : at(name);
    const leave = (from, to) => { taken.add(`${drawn(from)}>${drawn(to)}`); seen.add(drawn(to)); };
    let cursors = ['1'];
    for (const call of calls) {
      const i = cursors.findIndex(it => steps.has(it) && steps.get(it).master === call.master);
      const edge = i < 0 ? null : edgeOf(steps.get(cursors[i]), call.answer);
      if (!edge) break;
      leave(cursors[i], edge.to);
      const next = edge.to.split('+');
      if (next.length > 1) for (const to of next) leave(edge.to, to);
      cursors.splice(i, 1, ...next);
      if (cursors.length < 2 || cursors.some(it => steps.has(it))) continue;
      const end = cursors.includes('join-ready') ? 'join-ready' : 'join-back';
      cursors = [String(end === 'join-ready' ? plan.join.ready : plan.join.back)];
      leave(end, cursors[0]);
    }
    return { seen, taken };
  };
  return { layout, passed, folded };
})();
if (typeof module !== 'undefined') module.exports = Plan;
