// The source of a tree: its text as it is now, which is written anew after a step, and where in it the nodes are.

import { bench, languageOf, page } from './state.mjs';
import { language, placesOf } from './languages.mjs';
import { readTerm } from './terms.mjs';
import { written } from './written.mjs';

// What was found last of each tree, as it is loaded and as it is typed.
const found = new Map();

/**
 * What there is of a tree's source, or nothing where it has none. `text` is its text, `root` the tree that is shown beside it, if there is
 * one, and `places` where in the text its nodes are. `before` is the text that was read, `lost` are the comments that aren't in the new one,
 * and `unwritten` says why there is no new one. `wrong` is where the text can't be read, and why.
 */
export function sourceOf(name) {
  if (!languageOf(name)) return undefined;
  const draft = page.drafts.source.get(name);
  const known = language(languageOf(name));
  const of = draft === undefined ? [known, bench.sources.get(name), bench.trees.get(name)] : [known, draft];
  const key = `${of.length} ${name}`;
  const kept = found.get(key);
  if (kept?.of.every((it, i) => it === of[i])) return kept.source;
  const source = draft === undefined ? asLoaded(...of) : asTyped(...of);
  found.set(key, { of, source });
  return source;
}

const MISSING = 'this page has no parser for it';

function asTyped(known, text) {
  if (!known) return { text, before: text, lost: [], wrong: { place: 0, message: MISSING } };
  const parsed = known.parse(text);
  return { text, before: text, lost: [], root: parsed.root, places: parsed.spans, wrong: parsed.root ? undefined : parsed };
}

function asLoaded(known, { text }, tree) {
  const root = readTerm(tree);
  const old = known?.parse(text);
  const result = old?.root ? written(known, text, old, root) : { fault: `No new text is written: ${known ? old.message : MISSING}.` };
  if (result.fault === undefined) return { ...result, root, before: text };
  // what is left of the old tree is known by its positions
  return { text, before: text, lost: [], root, places: placesOf(root, text), unwritten: result.fault, none: result.wrong };
}

/** Where in its text the subterm at a path is, or what it is in. */
export function placeAt({ root, places }, path) {
  let [node, place] = [root, places.get(root)];
  for (const step of path) {
    node = node?.kids[step];
    place = places.get(node) ?? place;
  }
  return place;
}

/** The path of the smallest node that has the text from one place to another, or null. */
export function pathAt({ root, places }, first, last) {
  const walk = (node, path) => {
    const place = places.get(node);
    if (place && (first < place[0] || place[1] < last)) return null;
    for (let i = 0; i < node.kids.length; i++) {
      const inner = walk(node.kids[i], [...path, i]);
      if (inner) return inner;
    }
    return place ? path : null;
  };
  return walk(root, []);
}

/** The line and the column of a place in a text, both from 1, in characters. */
export function lineOf(text, place) {
  const begin = text.lastIndexOf('\n', place - 1) + 1;
  return { line: text.slice(0, begin).split('\n').length, column: [...text.slice(begin, place)].length + 1 };
}
