'use strict';
// Where the boxes and arrows of a plan are: boxes in a grid; an arrow leaves its box downwards, goes sideways between two
// rows and down between two columns, and so passes through no box.
const Places = (() => {
  const WIDTH = 196, HEIGHT = 34, BETWEEN = 40, BELOW = 34, EDGE = 26, TRACK = 6, TRACKS = 5;
  const left = node => EDGE + node.column * (WIDTH + BETWEEN);
  const top = node => 8 + node.row * (HEIGHT + BELOW);
  // Arrows to one place share a track, so that they do not lie on those to others.
  const order = nodes => new Map(nodes.map((node, i) => [node.name, (i % TRACKS - (TRACKS - 1) / 2) * TRACK]));
  const extent = (nodes, rows) => ({ width: Math.max(...nodes.map(left)) + WIDTH + EDGE + BETWEEN, height: rows.length * (HEIGHT + BELOW) + 10 });
  const points = (arrow, tracks) => {
    const { source, target } = arrow, aside = tracks.get(arrow.to);
    const x1 = left(source) + WIDTH * (source.out.indexOf(arrow) + 1) / (source.out.length + 1), y1 = top(source) + HEIGHT;
    const x2 = left(target) + WIDTH / 2 - (arrow.isBack ? WIDTH / 3 : 0), y2 = top(target) - 1;
    const under = y1 + BELOW / 2 + aside / 2, above = y2 - BELOW / 2 + aside / 2;
    if (!arrow.isBack && target.row === source.row + 1) return [[x1, y1], [x1, under], [x2, under], [x2, y2]];
    const between = arrow.isBack ? left(source) - EDGE / 2 + aside / 2 : left(source) + WIDTH + BETWEEN / 2 + aside;
    return [[x1, y1], [x1, under], [between, under], [between, above], [x2, above], [x2, y2]];
  };
  // Whether a straight line, which is level or upright, passes through a box.
  const crosses = ([x1, y1], [x2, y2], node) => Math.min(x1, x2) < left(node) + WIDTH && Math.max(x1, x2) > left(node) && Math.min(y1, y2) < top(node) + HEIGHT && Math.max(y1, y2) > top(node);
  return { WIDTH, HEIGHT, left, top, order, extent, points, crosses };
})();
if (typeof module !== 'undefined') module.exports = Places;
