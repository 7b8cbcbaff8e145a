'use strict';
// Draws a plan: its boxes, its arrows, and the way of a run.
const Picture = (() => {
  const { WIDTH, HEIGHT, left, top } = Places;
  const CORNER = 5, MOST_LETTERS = 29;
  const svg = (name, given, ...inside) => {
    const node = document.createElementNS('http://www.w3.org/2000/svg', name);
    for (const [key, value] of Object.entries(given)) node.setAttribute(key, value);
    node.append(...inside);
    return node;
  };
  // A line through points, with round corners.
  const through = points => {
    const kept = points.filter((point, i) => !i || point[0] !== points[i - 1][0] || point[1] !== points[i - 1][1]);
    let text = `M${kept[0]}`;
    for (let i = 1; i < kept.length - 1; i++) {
      const [before, here, after] = [kept[i - 1], kept[i], kept[i + 1]];
      const near = other => {
        const far = Math.hypot(other[0] - here[0], other[1] - here[1]);
        const part = Math.min(CORNER, far / 2) / (far || 1);
        return [here[0] + (other[0] - here[0]) * part, here[1] + (other[1] - here[1]) * part];
      };
      text += ` L${near(before)} Q${here} ${near(after)}`;
    }
    return `${text} L${kept[kept.length - 1]}`;
  };
  const shortened = text => text.length > MOST_LETTERS ? `${text.slice(0, MOST_LETTERS - 1)}…` : text;
  const boxOf = (node, isSeen) => {
    const { step } = node, x = left(node), y = top(node);
    const group = svg('g', { class: `node ${step ? `step m${step.master}` : `end ${node.name.split('+')[0]}`} ${isSeen ? 'seen' : ''}` });
    const label = step ? `${step.number} m${step.master} ${step.call}` : node.name;
    const hasSet = step && step.set !== null;
    group.append(svg('title', {}, label), svg('rect', { x, y, width: WIDTH, height: HEIGHT, rx: step ? 4 : 17 }));
    group.append(svg('text', { x: x + WIDTH / 2, y: y + (hasSet ? 14 : 21), 'text-anchor': 'middle' }, shortened(label)));
    if (hasSet) group.append(svg('text', { x: x + WIDTH / 2, y: y + 27, 'text-anchor': 'middle', class: 'small' }, `set ${step.set}`));
    return group;
  };
  const markers = () => svg('defs', {}, ...['plain', 'other', 'taken'].map(kind => svg('marker', { id: `tip-${kind}`, viewBox: '0 0 8 8', refX: 7, refY: 4, markerWidth: 8, markerHeight: 8, markerUnits: 'userSpaceOnUse', orient: 'auto' }, svg('path', { d: 'M0,0 L8,4 L0,8 z', class: `tip ${kind}` }))));
  const labelOf = (arrow, points, kind) => {
    const text = arrow.answers[0] || '', more = arrow.answers.length > 1 ? ` +${arrow.answers.length - 1}` : '';
    return svg('text', { x: points[0][0] + 3, y: points[0][1] + 11, class: `label ${kind}` }, text + more);
  };
  const draw = (plan, calls) => {
    const { nodes, arrows, rows, at, rounds } = Plan.layout(plan);
    const { seen, taken } = Plan.passed(plan, calls, at);
    const all = [...nodes.values()];
    const order = Places.order(all), { width, height } = Places.extent(all, rows);
    const picture = svg('svg', { width, height, viewBox: `0 0 ${width} ${height}`, role: 'img', 'aria-label': `the plan, ${plan.steps.length} steps; ${seen.size} places are on the way of this run` }, markers());
    const isTaken = arrow => taken.has(`${arrow.from}>${arrow.to}`);
    const labels = [];
    for (const arrow of [...arrows].sort((p, q) => isTaken(p) - isTaken(q))) {
      const kind = isTaken(arrow) ? 'taken' : arrow.isPlain ? 'plain' : 'other';
      const points = Places.points(arrow, order);
      const path = svg('path', { d: through(points), class: `arrow ${kind}`, 'marker-end': `url(#tip-${kind})` });
      path.append(svg('title', {}, `${arrow.from} to ${arrow.to}: ${arrow.answers.join(', ')}${arrow.pid ? `, pid ${arrow.pid}` : ''}`));
      picture.append(path);
      if (!arrow.isPlain) labels.push(labelOf(arrow, points, kind));
    }
    picture.append(...all.map(node => boxOf(node, seen.has(node.name))), ...labels);
    return { picture, rounds };
  };
  return { draw };
})();
