// The page of web/gateway.py: a network, routes, isochrones, and arcs that are closed, in truth or as a supposition.
"use strict";

const $ = (name) => document.getElementById(name);
const COLOURS = { open: "#5b6b7c", closed: "#c0271b", supposed: "#d98a00" };
// How many pixels an arc is drawn to the right of its road, so that both directions are seen.
const ASIDE = 2.5;

const map = L.map("map", { preferCanvas: true });
const arcs = new Map();
const layers = { arcs: L.layerGroup().addTo(map), area: L.layerGroup().addTo(map), route: L.layerGroup().addTo(map), ends: L.layerGroup().addTo(map) };
const state = { network: null, closed: new Set(), supposed: new Map(), ends: [], centre: null, version: null };
// A later answer to the same question takes the place of an earlier one, whichever comes first.
const turns = { distance: 0, area: 0, arcs: 0, followed: 0 };

// What a click does: "distance", "isochrone" or "road".
const clickDoes = () => document.querySelector("input[name=click]:checked").value;

function say(text) { $("message").textContent = text; }

async function fetched(address, options) {
  const response = await fetch(address, options);
  const body = await response.json();
  if (!response.ok) throw Object.assign(new Error(response.status === 503 ? `no answer now (${body.message})` : body.message), { again: response.status === 503, code: body.code });
  return body;
}

const place = (point) => `${point.lng.toFixed(6)},${point.lat.toFixed(6)}`;
const minutes = (seconds) => `${Math.floor(seconds / 60)} min ${seconds % 60} s`;
const amount = (value) => state.network.by === "time"
  ? (value < 60 ? `${value.toFixed(1)} s` : minutes(Math.round(value)))
  : (value < 1000 ? `${value.toFixed(1)} m` : `${(value / 1000).toFixed(2)} km`);

// A question, as things are or as they are supposed.
async function asked(address) {
  if (!state.supposed.size) return fetched("/" + address);
  const changes = [...state.supposed].map(([arc, closed]) => closed ? { close: arc } : { reopen: arc });
  return (await fetched("/suppose", { method: "POST", body: JSON.stringify({ changes, queries: [address] }) })).answers[0];
}

// Arcs.

function shifted(coordinates) {
  const points = coordinates.map(([lon, lat]) => map.latLngToLayerPoint([lat, lon]));
  return points.map((point, index) => {
    const before = points[Math.max(0, index - 1)], after = points[Math.min(points.length - 1, index + 1)];
    const away = L.point(before.y - after.y, after.x - before.x), size = Math.hypot(away.x, away.y) || 1;
    return map.layerPointToLatLng(point.add(away.multiplyBy(ASIDE / size)));
  });
}

function coloured(arc) {
  const kind = state.supposed.has(arc) ? "supposed" : state.closed.has(arc) ? "closed" : "open";
  return { color: COLOURS[kind], weight: kind === "open" ? 3 : 5, dashArray: kind === "open" ? null : "6 6" };
}

function recolour() {
  for (const [arc, line] of arcs) line.setStyle(coloured(arc));
  const named = (word, some) => some.length ? [`${word}: arc ${some.sort((a, b) => a - b).slice(0, 12).join(", ")}${some.length > 12 ? ", .." : ""}`] : [];
  const supposed = (closed) => [...state.supposed].filter((each) => each[1] === closed).map((each) => each[0]);
  const told = [...named("closed", [...state.closed]), ...named("supposed closed", supposed(true)), ...named("supposed open", supposed(false))];
  $("roads").textContent = told.join("; ") || "all arcs are open";
  $("forget").hidden = !state.supposed.size;
}

async function drawArcs() {
  const turn = ++turns.arcs, box = map.getBounds().pad(0.5);
  const told = await fetched(`/arcs?bbox=${[box.getWest(), box.getSouth(), box.getEast(), box.getNorth()].map((degrees) => degrees.toFixed(6)).join(",")}`);
  if (turn !== turns.arcs) return;
  layers.arcs.clearLayers();
  arcs.clear();
  if (told.count && !told.features.length) say(`${told.count.toLocaleString()} arcs are here: zoom in to see them`);
  for (const { id, properties, geometry } of told.features) {
    const line = L.polyline(shifted(geometry.coordinates), coloured(id));
    line.bindTooltip(`arc ${id}, ${properties.from} to ${properties.to}, ${properties.metres} m`, { sticky: true });
    if (properties.name) line.setTooltipContent(`${properties.name.replace(/[<>&]/g, "")}: arc ${id}, ${properties.metres} m`);
    line.on("click", () => { if (clickDoes() === "road") toggled(id).catch((fault) => say(fault.message)); });
    arcs.set(id, line.addTo(layers.arcs));
  }
}

async function toggled(arc) {
  say("");
  if ($("supposing").checked) {
    if (!state.supposed.delete(arc)) state.supposed.set(arc, !state.closed.has(arc));
    recolour();
    return followed();
  }
  const change = state.closed.has(arc) ? { reopen: arc } : { close: arc };
  await fetched("/changes", { method: "POST", headers: { Authorization: `Bearer ${$("token").value}` }, body: JSON.stringify({ changes: [change] }) });
  // The server's next version comes as an event, and with it all that follows.
}

// What is asked.

async function tellDistance() {
  const turn = ++turns.distance;
  if (state.ends.length < 2) return void layers.route.clearLayers();
  const told = await asked(`route/v1/${state.network.profile}/${state.ends.map(place).join(";")}?geometries=geojson&overview=full`).catch((fault) => {
    if (fault.code !== "NoRoute") throw fault;
  });
  if (turn !== turns.distance) return;
  layers.route.clearLayers();
  $("distance").textContent = (told ? amount(told.routes[0].weight) : "There is no way.") + (state.supposed.size ? " (supposed)" : "");
  if (!told) return;
  L.polyline(shifted(told.routes[0].geometry.coordinates), { color: "#1b5ec0", weight: 7, opacity: 0.5, interactive: false }).addTo(layers.route);
  drawEnds(told.waypoints.map((waypoint) => waypoint.location));
}

function drawEnds(locations) {
  layers.ends.clearLayers();
  locations.forEach(([lon, lat], index) => L.circleMarker([lat, lon], { radius: 7, color: index ? "#1b5ec0" : "#1b8a3a", fillOpacity: 0.8, interactive: false }).addTo(layers.ends));
}

async function tellArea() {
  const turn = ++turns.area;
  if (!state.centre) return;
  const told = await asked(`isochrone?from=${place(state.centre)}&within=${Number($("within").value) || 0}`);
  if (turn !== turns.area) return;
  layers.area.clearLayers();
  L.geoJSON(told.features, { style: { color: "#1b8a3a", weight: 1, fillOpacity: 0.25 }, interactive: false }).addTo(layers.area);
  $("area").textContent = `${told.features[0].properties.nodes} nodes within ${amount(told.features[0].properties.within)}` + (state.supposed.size ? " (supposed)" : "");
}

async function followed() {
  const turn = ++turns.followed, done = await Promise.allSettled([tellDistance(), tellArea()]);
  if (turn !== turns.followed) return;
  const failed = done.find((each) => each.status === "rejected");
  say(failed ? failed.reason.message : "");
  if (failed?.reason.again) setTimeout(() => { if (turn === turns.followed) followed(); }, 3000);
}

map.on("click", (event) => {
  if (clickDoes() === "road") return;
  if (clickDoes() === "isochrone") {
    state.centre = event.latlng;
  } else {
    state.ends = state.ends.length === 2 ? [event.latlng] : [...state.ends, event.latlng];
    // As they were clicked, until the answer says where the network has them.
    drawEnds(state.ends.map((point) => [point.lng, point.lat]));
    $("distance").textContent = state.ends.length === 1 ? "Click where to." : "..";
  }
  followed();
});
map.on("zoomend", () => { if (layers.route.getLayers().length) followed(); });
map.on("zoomend moveend", () => drawArcs().catch((fault) => say(fault.message)));
$("within").addEventListener("change", followed);
$("forget").addEventListener("click", () => { state.supposed.clear(); recolour(); followed(); });
$("supposing").addEventListener("change", () => { if (!$("supposing").checked && state.supposed.size) { state.supposed.clear(); recolour(); followed(); } });

// How the server stands.

function listen() {
  const events = new EventSource("/events");
  events.addEventListener("state", (event) => {
    const told = JSON.parse(event.data);
    $("server").className = told.connected ? "" : "away";
    $("server").textContent = told.connected
      ? `version ${told.shown}` + (told.behind ? `, ${told.behind} behind what is durable` : "") + `; ${told.pairs} sessions`
      : `no server now; the last version was ${told.shown ?? "not seen"}`;
    state.closed = new Set(told.closed);
    // What was supposed and has been done meanwhile is supposed no more.
    for (const [arc, closed] of state.supposed) if (closed === state.closed.has(arc)) state.supposed.delete(arc);
    recolour();
    if (told.connected && (told.shown !== state.version || !state.connected)) followed();
    state.version = told.shown;
    state.connected = told.connected;
  });
  events.onerror = () => {
    $("server").className = "away";
    $("server").textContent = "the gateway does not answer; it is tried again";
    state.connected = false;
    if (events.readyState === EventSource.CLOSED) setTimeout(listen, 2000);
  };
}

async function begin() {
  state.network = await fetched("/network");
  const [west, south, east, north] = state.network.bounds;
  if (state.network.tiles) L.tileLayer(state.network.tiles, { maxZoom: 19, attribution: "© OpenStreetMap contributors" }).addTo(map);
  for (const unit of document.querySelectorAll(".unit")) unit.textContent = state.network.by === "time" ? "seconds" : "metres";
  $("token-line").hidden = !state.network.changes;
  if (!state.network.changes) $("supposing").checked = $("supposing").disabled = true;
  map.fitBounds([[south, west], [north, east]]);
  listen();
}

begin().catch((fault) => say(fault.message));
