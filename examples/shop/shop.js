"use strict";

// The page of the example shop. What is wanted stands in one object and in the address of the page; each change of it
// asks the server anew and shows the reply. A reply to a request that a newer one has overtaken is dropped. The server
// marks the words that it found, cuts descriptions down, and, by its settings, gives one product of each line.

const INDEX = "products";
const SEARCHES = "/multi-search";
const VALUES = `/indexes/${INDEX}/facet-search`;
const FACETS = [
  { attribute: "categories", title: "Category" },
  { attribute: "brand", title: "Brand" },
  { attribute: "colour", title: "Colour" },
];
const LONG = 12; // values of a facet above which a box over them asks for those that begin with its text
const ON_A_PAGE = 24;
const PAUSE_FOR_WORDS = 120; // milliseconds without a key before a search is sent
const PAUSE_FOR_PRICES = 400;
// What is shown of a text, with characters of private use as tags: no product has them in its texts.
const TEXTS = {
  attributesToHighlight: ["name", "brand", "categories", "colour", "description"],
  highlightPreTag: "\uE000", highlightPostTag: "\uE001",
  attributesToCrop: ["description"], cropLength: 12,
};
const MARKED = /\uE000([^\uE000\uE001]*)\uE001/u;
const EUROS = new Intl.NumberFormat("en-IE", { style: "currency", currency: "EUR" });

const wanted = nothingWanted();
const shown = Object.fromEntries(FACETS.map(({ attribute }) => [attribute, new Map()]));
const boxes = Object.fromEntries(FACETS.map(({ attribute }) => [attribute, { round: 0, pause: 0 }]));
let matching = "all"; // the strategy of the search that is shown
let round = 0;
let running = new AbortController();
let pause;

const part = (id) => document.getElementById(id);

function nothingWanted() {
  const values = Object.fromEntries(FACETS.map(({ attribute }) => [attribute, new Set()]));
  return { words: "", values, least: "", most: "", stock: false, sort: "", page: 1 };
}

// ---- What is wanted, in the address of the page

function readAddress() {
  const pairs = new URLSearchParams(location.search);
  wanted.words = pairs.get("q") ?? "";
  wanted.least = pairs.get("least") ?? "";
  wanted.most = pairs.get("most") ?? "";
  wanted.stock = pairs.has("stock");
  const orders = [...part("sort").options].map((option) => option.value);
  wanted.sort = orders.includes(pairs.get("sort")) ? pairs.get("sort") : "";
  wanted.page = Math.max(1, parseInt(pairs.get("page"), 10) || 1);
  for (const { attribute } of FACETS) wanted.values[attribute] = new Set(pairs.getAll(attribute));
}

function writeAddress() {
  const pairs = new URLSearchParams();
  if (wanted.words) pairs.set("q", wanted.words);
  for (const { attribute } of FACETS) for (const value of wanted.values[attribute]) pairs.append(attribute, value);
  if (wanted.least) pairs.set("least", wanted.least);
  if (wanted.most) pairs.set("most", wanted.most);
  if (wanted.stock) pairs.set("stock", "yes");
  if (wanted.sort) pairs.set("sort", wanted.sort);
  if (wanted.page > 1) pairs.set("page", wanted.page);
  const text = pairs.toString();
  history.replaceState(null, "", text ? `?${text}` : location.pathname);
}

// ---- Asking

function quoted(text) {
  return `"${text.replace(/["\\]/g, "\\$&")}"`;
}

function cents(euros) {
  const amount = Math.round(Number(euros) * 100);
  return euros !== "" && Number.isSafeInteger(amount) ? amount : null;
}

/** The conditions of the filter: values of one attribute are joined by OR, all else by AND. */
function conditions(except) {
  const joined = [];
  for (const { attribute } of FACETS) {
    const values = [...wanted.values[attribute]];
    if (attribute !== except && values.length) joined.push(values.map((value) => `${attribute} = ${quoted(value)}`));
  }
  if (except !== "price") {
    if (cents(wanted.least) !== null) joined.push(`price >= ${cents(wanted.least)}`);
    if (cents(wanted.most) !== null) joined.push(`price <= ${cents(wanted.most)}`);
  }
  if (wanted.stock) joined.push("in_stock = true");
  return joined;
}

async function ask(path, members, signal) {
  const reply = await fetch(path, { method: "POST", body: JSON.stringify(members), signal }).catch(() => null);
  if (!reply) throw new Error("The server cannot be reached.");
  const found = await reply.json().catch(() => null);
  if (!reply.ok || !found) throw new Error(found?.message ?? `The server answered with status ${reply.status}.`);
  return found;
}

/**
 * A page of hits with all counts, in one request, and one hit more, which tells that there is a next page: totals are
 * over all products, and hits are one of each line. The counts of an attribute are those without its own condition, so
 * that a second value can be chosen beside the first; they need a search of their own.
 */
async function answers(matchingStrategy, signal) {
  const common = { indexUid: INDEX, q: wanted.words, matchingStrategy };
  const names = FACETS.map(({ attribute }) => attribute);
  const narrowed = names.filter((name) => wanted.values[name].size);
  if (wanted.least || wanted.most) narrowed.push("price");
  const page = {
    ...common, filter: conditions(), facets: [...names, "price"], sort: wanted.sort ? [wanted.sort] : [],
    offset: (wanted.page - 1) * ON_A_PAGE, limit: ON_A_PAGE + 1, ...TEXTS,
  };
  const counts = narrowed.map((name) => ({ ...common, filter: conditions(name), facets: [name], limit: 0 }));
  const { results: [found, ...others] } = await ask(SEARCHES, { queries: [page, ...counts] }, signal);
  for (const other of others) {
    Object.assign(found.facetDistribution, other.facetDistribution);
    Object.assign(found.facetStats, other.facetStats);
  }
  return found;
}

/** All words are asked for; where nothing has them all, as many as can be had. */
async function bestAnswers(signal) {
  const found = await answers("all", signal);
  if (found.estimatedTotalHits > 0 || !wanted.words) return found;
  return { ...await answers("last", signal), dropped: true };
}

/** The values of a facet that begin with the text of its box, with their counts; null where the box is empty. */
async function valuesWithin(attribute) {
  const facetQuery = part(`within-${attribute}`).value.trimStart();
  if (!facetQuery) return null;
  const members = { q: wanted.words, matchingStrategy: matching, filter: conditions(attribute) };
  return (await ask(VALUES, { facetName: attribute, facetQuery, ...members })).facetHits;
}

async function searchWithin(attribute) {
  const box = boxes[attribute];
  clearTimeout(box.pause);
  const mine = ++box.round;
  const list = part(`facet-${attribute}`);
  list.setAttribute("aria-busy", "true");
  try {
    const hits = await valuesWithin(attribute);
    if (mine === box.round) showWithin(attribute, hits);
  } catch (error) {
    if (mine === box.round) showFailure(error);
  }
  if (mine === box.round) list.setAttribute("aria-busy", "false");
}

async function search() {
  clearTimeout(pause);
  const mine = ++round;
  running.abort();
  running = new AbortController();
  part("results").setAttribute("aria-busy", "true");
  writeAddress();
  try {
    const found = await bestAnswers(running.signal);
    if (mine === round) {
      show(found);
      await Promise.all(FACETS.map(({ attribute }) => searchWithin(attribute)));
    }
  } catch (error) {
    if (mine === round) showFailure(error);
  }
  if (mine === round) part("results").setAttribute("aria-busy", "false");
}

function searchAfter(milliseconds) {
  clearTimeout(pause);
  pause = setTimeout(search, milliseconds);
}

// ---- Showing

function make(tag, attributes = {}, ...children) {
  const made = document.createElement(tag);
  for (const [name, value] of Object.entries(attributes)) made.setAttribute(name, value);
  made.append(...children);
  return made;
}

/** A text as the server shows it: what it put between tags becomes a mark, and all of it is text and never HTML. */
function marked(text) {
  const pieces = document.createDocumentFragment();
  text.split(MARKED).forEach((piece, number) => pieces.append(number % 2 ? make("mark", {}, piece) : piece));
  return pieces;
}

function picture(name, colour) {
  const drawing = document.createElementNS("http://www.w3.org/2000/svg", "svg");
  const use = document.createElementNS("http://www.w3.org/2000/svg", "use");
  use.setAttribute("href", `#${name}`);
  drawing.setAttribute("aria-hidden", "true");
  drawing.append(use);
  return make("div", { class: "picture", "data-colour": colour }, drawing);
}

function card(hit) {
  const texts = hit._formatted;
  const rating = (hit.rating / 10).toFixed(1);
  const facts = make("p", { class: "facts" },
    make("span", { class: "price" }, EUROS.format(hit.price / 100)),
    make("span", { class: "rating", role: "img", "aria-label": `rated ${rating} of 5` }, `★ ${rating}`));
  const parts = [
    make("p", { class: "brand" }, marked(texts.brand)),
    make("h2", {}, marked(texts.name)),
    make("p", { class: "kind" }, marked(`${texts.categories.join(", ")} · ${texts.colour}`)),
    make("p", { class: "about" }, marked(texts.description)),
    facts,
  ];
  if (!hit.in_stock) parts.push(make("p", { class: "gone" }, "Out of stock"));
  const text = make("div", { class: "text" }, ...parts);
  return make("li", {}, make("article", {}, picture(hit.picture, hit.colour), text));
}

function showFacets() {
  for (const { attribute, title } of FACETS) {
    const label = `Find a ${title.toLowerCase()}`;
    const box = make("input", { type: "search", class: "within", id: `within-${attribute}`, "aria-label": label,
      placeholder: label, autocomplete: "off" });
    box.addEventListener("input", () => {
      clearTimeout(boxes[attribute].pause);
      boxes[attribute].pause = setTimeout(searchWithin, PAUSE_FOR_WORDS, attribute);
    });
    const list = make("div", { class: "choices", id: `facet-${attribute}` });
    part("facets").append(make("fieldset", {}, make("legend", {}, title), box, list));
  }
}

/** Of a long facet only the values that its box found, where it has a text, and those that are chosen. */
function showWithin(attribute, hits) {
  for (const { value, count } of hits ?? []) showCount(attribute, value, count);
  const found = hits && new Set(hits.map(({ value }) => value));
  part(`within-${attribute}`).hidden = shown[attribute].size <= LONG;
  for (const [value, { label }] of shown[attribute]) {
    label.hidden = found !== null && !found.has(value) && !wanted.values[attribute].has(value);
  }
}

/** The line of a value, made where it is new. Lines stay where they are, so that the one in focus keeps it. */
function choice(attribute, value) {
  const lines = shown[attribute];
  if (!lines.has(value)) {
    const box = make("input", { type: "checkbox", name: attribute, value });
    const count = make("span", { class: "number" });
    const label = make("label", { class: "choice" }, box, make("span", { "data-colour": value }, value), count);
    const next = [...lines.keys()].filter((other) => other.localeCompare(value) > 0).sort((a, b) => a.localeCompare(b));
    part(`facet-${attribute}`).insertBefore(label, next.length ? lines.get(next[0]).label : null);
    lines.set(value, { label, box, count });
  }
  return lines.get(value);
}

function showCount(attribute, value, number) {
  const { label, box, count } = choice(attribute, value);
  box.checked = wanted.values[attribute].has(value);
  count.textContent = number;
  label.classList.toggle("none", !number);
}

function showCounts(distribution) {
  for (const { attribute } of FACETS) {
    const counts = distribution[attribute] ?? {};
    const values = [...Object.keys(counts), ...wanted.values[attribute], ...shown[attribute].keys()];
    for (const value of new Set(values)) showCount(attribute, value, counts[value] ?? 0);
  }
}

function showPrices(stats) {
  part("least").placeholder = stats.price ? Math.floor(stats.price.min / 100) : "";
  part("most").placeholder = stats.price ? Math.ceil(stats.price.max / 100) : "";
}

function chip(text, take) {
  const button = make("button", { type: "button", "aria-label": `Take away: ${text}` }, text, make("span", {}, "×"));
  button.addEventListener("click", () => {
    take();
    part("results").focus({ preventScroll: true });
    changed();
  });
  return make("li", {}, button);
}

function showChosen() {
  const chips = FACETS.flatMap(({ attribute }) =>
    [...wanted.values[attribute]].map((value) => chip(value, () => wanted.values[attribute].delete(value))));
  if (wanted.least) chips.push(chip(`from €${wanted.least}`, () => { wanted.least = ""; }));
  if (wanted.most) chips.push(chip(`up to €${wanted.most}`, () => { wanted.most = ""; }));
  if (wanted.stock) chips.push(chip("in stock", () => { wanted.stock = false; }));
  if (chips.length > 1) chips.push(chip("all filters", clearFilters));
  part("chosen").replaceChildren(...chips);
  const count = chips.length > 1 ? chips.length - 1 : chips.length;
  part("opener").textContent = count ? `Filters (${count})` : "Filters";
}

function pageButton(text, page, label, current) {
  const button = make("button", { type: "button", "aria-label": label }, text);
  if (current) button.setAttribute("aria-current", "page");
  button.addEventListener("click", () => {
    wanted.page = page;
    part("results").focus({ preventScroll: true });
    part("results").scrollIntoView();
    search();
  });
  return button;
}

/** The first page and those up to this one; how many more there are is not known, but whether there is a next one. */
function showPages(page, more) {
  const buttons = [];
  if (page > 1) buttons.push(pageButton("‹ Back", page - 1, "Page before", false));
  for (const number of new Set([1, page - 2, page - 1, page].filter((number) => number > 0))) {
    if (number > 2 && number === page - 2) buttons.push(make("span", { "aria-hidden": "true" }, "…"));
    buttons.push(pageButton(String(number), number, `Page ${number}`, number === page));
  }
  if (more) buttons.push(pageButton("Next ›", page + 1, "Next page", false));
  part("pages").replaceChildren(...(page > 1 || more ? buttons : []));
}

function show(found) {
  matching = found.dropped ? "last" : "all";
  const total = found.estimatedTotalHits;
  part("failed").hidden = true;
  part("empty").hidden = total > 0;
  part("count").textContent = total === 1 ? "1 product" : `${total} products`;
  part("hint").hidden = !(found.dropped && total > 0);
  part("hint").textContent = "No product has all of these words. These have some of them.";
  part("hits").replaceChildren(...found.hits.slice(0, ON_A_PAGE).map(card));
  showCounts(found.facetDistribution);
  showPrices(found.facetStats);
  showChosen();
  showPages(wanted.page, found.hits.length > ON_A_PAGE);
}

function showFailure(error) {
  part("failed").hidden = false;
  part("reason").textContent = error.message;
  for (const id of ["empty", "hint"]) part(id).hidden = true;
  for (const id of ["hits", "pages"]) part(id).replaceChildren();
  part("count").textContent = "No answer";
}

// ---- What the visitor does

function showWanted() {
  part("words").value = wanted.words;
  part("least").value = wanted.least;
  part("most").value = wanted.most;
  part("stock").checked = wanted.stock;
  part("sort").value = wanted.sort;
}

/** Something else is wanted, so its first page. */
function changed() {
  wanted.page = 1;
  showWanted();
  search();
}

function clearFilters() {
  const { words, sort } = wanted;
  Object.assign(wanted, nothingWanted(), { words, sort });
}

function listen() {
  part("words").addEventListener("input", (event) => {
    wanted.words = event.target.value;
    wanted.page = 1;
    searchAfter(PAUSE_FOR_WORDS);
  });
  part("search").addEventListener("submit", (event) => {
    event.preventDefault();
    search();
  });
  part("facets").addEventListener("change", ({ target }) => {
    const values = wanted.values[target.name];
    if (!values) return;
    if (target.checked) values.add(target.value);
    else values.delete(target.value);
    changed();
  });
  for (const id of ["least", "most"]) {
    part(id).addEventListener("input", (event) => {
      wanted[id] = event.target.value;
      wanted.page = 1;
      searchAfter(PAUSE_FOR_PRICES);
    });
  }
  part("stock").addEventListener("change", (event) => {
    wanted.stock = event.target.checked;
    changed();
  });
  part("sort").addEventListener("change", (event) => {
    wanted.sort = event.target.value;
    changed();
  });
  part("filters").addEventListener("submit", (event) => event.preventDefault());
  part("again").addEventListener("click", search);
  part("reset").addEventListener("click", () => {
    Object.assign(wanted, nothingWanted());
    part("words").focus();
    changed();
  });
  part("opener").addEventListener("click", () => {
    const open = part("filters").classList.toggle("open");
    part("opener").setAttribute("aria-expanded", String(open));
  });
  document.addEventListener("keydown", (event) => {
    if (event.key !== "/" || event.target.closest("input, select")) return;
    event.preventDefault();
    part("words").focus();
  });
}

/** The drawings become a part of the page, so that its style sheet colours them. Without them the page does as well. */
async function fetchPictures() {
  const reply = await fetch("pictures.svg").catch(() => null);
  if (!reply?.ok) return;
  const drawings = new DOMParser().parseFromString(await reply.text(), "image/svg+xml").documentElement;
  drawings.setAttribute("class", "pictures");
  drawings.setAttribute("aria-hidden", "true");
  document.body.append(document.importNode(drawings, true));
}

readAddress();
showFacets();
showWanted();
listen();
fetchPictures();
search();
