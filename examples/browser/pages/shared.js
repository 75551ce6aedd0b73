// What the pages share: the connection to the gateway, the chart of the last 30 seconds, and the drawn picture with its time code.
'use strict';
const descriptorURI = 'https://aomediacodec.github.io/av1-rtp-spec/#dependency-descriptor-rtp-header-extension';
const asked = new URLSearchParams(location.search);
const by = id => document.getElementById(id);

// ---- the connection

// AV1 alone, and with descriptors: browsers leave them out unless they are asked for.
function onlyAV1(transceiver) {
  if (!transceiver.setHeaderExtensionsToNegotiate) throw new Error('this needs a browser that is built on Chromium');
  const codecs = RTCRtpReceiver.getCapabilities('video').codecs;
  transceiver.setCodecPreferences(codecs.filter(c => c.mimeType === 'video/AV1' && !/profile=[12]/.test(c.sdpFmtpLine)));
  const extensions = transceiver.getHeaderExtensionsToNegotiate();
  for (const e of extensions) if (e.uri === descriptorURI || e.uri.endsWith(':mid')) e.direction = 'sendrecv';   // MID is mandatory
  transceiver.setHeaderExtensionsToNegotiate(extensions);
}

async function described(pc) {
  await pc.setLocalDescription();
  while (pc.iceGatheringState !== 'complete') await new Promise(go => setTimeout(go, 20));
  return pc.localDescription.sdp;
}

// Posts an offer and takes its answer; tells the track's number, and for how many milliseconds the room waits for lost packets.
async function connect(pc, path) {
  const reply = await fetch(path, {method: 'POST', body: await described(pc)});
  if (!reply.ok) throw new Error(await reply.text());
  const {track, sdp, hold} = await reply.json();
  await pc.setRemoteDescription({type: 'answer', sdp});
  return [track, hold];
}

// The channel on which the gateway tells of frames that came into the room and went out of it, `came N DESCRIPTOR` and `went N DESCRIPTOR`,
// and answers lines for the control port, as in `why 812: reference 809`.
function listen(pc, frame, answer = () => {}) {
  const channel = pc.createDataChannel('room', {negotiated: true, id: 0}), templates = new Map();
  channel.onmessage = event => {
    const [, word, n, descriptor] = event.data.match(/^(came|went) (\d+) (\w+)$/) || [];
    if (!word) return answer(...event.data.split(': '));
    const layers = layersOf(templates, descriptor.match(/../g).map(byte => parseInt(byte, 16)));
    if (layers) frame(word, Number(n), ...layers);
  };
  addEventListener('pagehide', () => pc.close());
  return channel;
}

// The spatial and temporal layer of the frame with this descriptor, by its template. A key frame brings all templates: each has the layers of
// the one before it, or the next temporal layer, or the next spatial one (RTP Payload Format For AV1 v1.0, Appendix A.8).
function layersOf(templates, bytes) {
  if (bytes.length > 5 && bytes[3] & 0x80) {
    templates.clear();
    let id = (bytes[3] & 7) << 3 | bytes[4] >> 5, spatial = 0, temporal = 0;
    for (let at = 20; at < bytes.length * 4; at++) {
      templates.set(id++ & 63, [spatial, temporal]);
      const step = bytes[at >> 2] >> (6 - (at & 3) * 2) & 3;
      if (step === 3) break;
      if (step === 1) temporal++;
      if (step === 2) [spatial, temporal] = [spatial + 1, 0];
    }
  }
  return templates.get(bytes[0] & 63);
}

async function statsOf(pc, type) {
  return [...(await pc.getStats()).values()].find(s => s.type === type && s.kind === 'video') || {};
}

function show(facts) {
  by('facts').innerHTML = Object.entries(facts).map(([name, value]) => `<dt>${name}<dd>${value}`).join('');
}

// ---- the chart

const span = 30000, shades = ['#14406e', '#4a86c5', '#a6c8ea'];

// Three strips over the same 30 seconds: two lines, and the frames by spatial layer, shaded by temporal layer. Bands lie behind them all, and
// marks stand in front, tall or short.
class Chart {
  constructor(canvas, names) {
    Object.assign(this, {canvas, names, lines: [[], []], frames: [], bands: [], marks: [], wish: [], spatial: 1, temporal: 1, lanes: ['S0', 'S1', 'S2', 'S3']});
    setInterval(() => this.draw(), 200);
  }
  frame(spatial, temporal, missing) {
    this.spatial = Math.max(this.spatial, spatial + 1);
    this.temporal = Math.max(this.temporal, temporal + 1);
    this.frames.push([Date.now(), spatial, missing ? -1 : temporal]);
  }
  draw() {
    const {canvas} = this, now = Date.now(), scale = devicePixelRatio, wide = canvas.clientWidth, high = canvas.clientHeight;
    for (const list of [...this.lines, this.frames, this.bands, this.marks]) while (list.length && list[0][0] < now - span - 1000) list.shift();
    while (this.wish.length > 1 && this.wish[1][0] < now - span) this.wish.shift();
    canvas.width = wide * scale;
    canvas.height = high * scale;
    const c = canvas.getContext('2d'), left = 118, right = wide - 8, strip = (high - 50) / 3;
    const x = at => Math.max(left, right - (now - at) / span * (right - left));
    c.scale(scale, scale);
    c.font = '13px system-ui, "DejaVu Sans", sans-serif';
    c.textBaseline = 'middle';
    const text = (words, at, y, align, colour = '#66727f') => { c.textAlign = align; c.fillStyle = colour; c.fillText(words, at, y); };
    for (const [from, to] of this.bands) {
      c.fillStyle = '#fbdcd7';
      c.fillRect(x(from), 0, Math.max(1, x(to || now) - x(from)), high - 36);
    }
    this.lines.forEach((line, place) => {
      const top = place * (strip + 7) + 6, bottom = top + strip - 10;
      const last = line.length ? line[line.length - 1][1] : 0, most = Math.max(10, ...line.map(p => p[1])) * 1.1;
      text(this.names[place], left - 10, top + 8, 'right');
      text(Math.round(last).toLocaleString('en'), left - 10, top + 30, 'right', '#1f2933');
      text(Math.round(most / 1.1).toLocaleString('en'), left + 4, top + 8, 'left', '#a3adb8');
      c.fillStyle = '#e1e5ea';
      c.fillRect(left, bottom, right - left, 1);
      c.beginPath();
      for (const [at, value] of line) c.lineTo(x(at), bottom - value / most * (bottom - top));
      c.strokeStyle = '#1f5fa8';
      c.lineWidth = 1.6;
      c.stroke();
    });
    const top = 2 * (strip + 7) + 6, lane = (strip - 10) / this.spatial;
    const laneOf = spatial => top + (this.spatial - 1 - spatial) * lane;
    text(this.names[2], left - 38, top + 8, 'right');
    for (let s = 0; s < this.spatial; s++) {
      text(this.lanes[s], left - 10, laneOf(s) + Math.min(lane / 2, 16), 'right', '#1f2933');
      c.fillStyle = '#e1e5ea';
      c.fillRect(left, laneOf(s) + lane - 1, right - left, 1);
    }
    for (const [at, spatial, temporal] of this.frames) {
      if (at < now - span) continue;
      c.fillStyle = temporal < 0 ? '#d6402b' : shades[Math.min(temporal, 2)];
      c.fillRect(x(at) - 1, laneOf(spatial) + 3, temporal < 0 ? 3 : 1.8, lane - 7);
    }
    c.setLineDash([5, 4]);
    c.strokeStyle = '#66727f';
    c.lineWidth = 1;
    c.beginPath();
    this.wish.forEach(([at, spatial], place) => {   // a line above the layers that are wished for
      const y = laneOf(Math.min(spatial, this.spatial - 1)) + 0.5;
      c.lineTo(x(at), y);
      c.lineTo(place + 1 < this.wish.length ? x(this.wish[place + 1][0]) : right, y);
    });
    c.stroke();
    c.setLineDash([]);
    for (const [at, colour, tall] of this.marks) {
      c.fillStyle = colour;
      c.fillRect(x(at), tall ? 0 : high - 44, tall ? 1.5 : 2, tall ? high - 36 : 8);
    }
    const foot = high - 28;
    for (let s = 0; s <= 30; s += 10) text(s ? `−${s} s` : 'now', x(now - s * 1000) + (s === 30 ? 14 : 0), foot, s ? 'center' : 'right');
    let at = left;
    for (const [colour, words] of this.legend()) {
      c.fillStyle = colour;
      c.fillRect(at, high - 14, 10, 10);
      text(words, at + 15, high - 8, 'left');
      at += c.measureText(words).width + 34;
    }
  }
  legend() {
    const of = shades.slice(0, this.temporal).map((shade, t) => [shade, this.temporal > 1 ? `temporal layer ${t}` : 'frame']);
    return [...of, ...this.names[3]];
  }
}

// ---- the drawn picture: circles that wander over a sky, the time, and somebody's name

function drawPicture(context, width, height, name = '') {
  const turn = Date.now() / 2500, sky = context.createLinearGradient(0, 0, width, height);
  const hue = turn * 20 + [...name].reduce((sum, letter) => sum + letter.charCodeAt(0) * 47, 0);
  sky.addColorStop(0, `hsl(${hue % 360} 45% 70%)`);
  sky.addColorStop(1, `hsl(${(hue + 80) % 360} 45% 45%)`);
  context.fillStyle = sky;
  context.fillRect(0, 0, width, height);
  for (let n = 0; n < 7; n++) {
    context.fillStyle = `hsl(${n * 51} 60% ${60 + n * 4}% / 0.8)`;
    context.beginPath();
    context.arc(width * (0.5 + 0.42 * Math.sin(turn * (1 + n / 5) + n)), height * (0.52 + 0.3 * Math.cos(turn * 1.3 + n * 2)), height / 12, 0, 7);
    context.fill();
  }
  context.fillStyle = '#fff';
  context.font = `600 ${height / 7}px system-ui, "DejaVu Sans", sans-serif`;
  context.fillText(new Date().toISOString().slice(14, 22), width / 24, height * 0.92);
  context.fillText(name.slice(0, 8), width / 24, height * 0.3);
  drawTime(context, width, height);
}

// ---- a time code in the top row of the drawn picture: 16 bits of milliseconds and 4 that check them. It outlives any scaling.

const bits = 20;
const checked = ms => (ms << 4 | (~(ms ^ ms >> 4 ^ ms >> 8 ^ ms >> 12) & 15)) >>> 0;

function drawTime(context, width, height) {
  const word = checked(Date.now() & 0xffff);
  for (let bit = 0; bit < bits; bit++) {
    context.fillStyle = word >> bit & 1 ? '#fff' : '#000';
    context.fillRect(bit * width / bits, 0, width / bits + 1, height / 8);
  }
}

// The milliseconds since the picture was drawn, or null where it has no time code. Both pages have to be on one machine.
const small = new OffscreenCanvas(bits * 4, 4).getContext('2d', {willReadFrequently: true});
function ageOf(video) {
  small.drawImage(video, 0, 0, video.videoWidth, video.videoHeight / 8, 0, 0, bits * 4, 4);
  const pixels = small.getImageData(0, 2, bits * 4, 1).data;
  let word = 0;
  for (let bit = 0; bit < bits; bit++) if (pixels[(bit * 4 + 2) * 4] > 128) word |= 1 << bit;
  return checked(word >>> 4) === word ? (Date.now() - (word >>> 4)) & 0xffff : null;
}
