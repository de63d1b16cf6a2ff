// Draws lines against time on a canvas.

export const HUES = ["#2f81f7", "#e0662f", "#2da44e", "#a34ed6", "#d4a018", "#12a5a5", "#d6408a", "#7d8896"];
const LEFT = 56, RIGHT = 10, TOP = 12, BOTTOM = 26;
const STEPS = [0.1, 0.2, 0.5, 1, 2, 5, 10, 15, 30, 60, 120, 300, 600, 900, 1800, 3600, 7200, 14400, 28800];
const LIMITS = [[3, "RL", "--red"], [4, "YL", "--yellow"], [5, "YH", "--yellow"], [6, "RH", "--red"], [7, "GL", "--green"], [8, "GH", "--green"]];

const style = (name) => getComputedStyle(document.documentElement).getPropertyValue(name).trim();

/** The limits of a line as numbers with their letters and colours. */
const limitsOf = (line) => (line.limits ? LIMITS.filter(([at]) => line.limits[at] != null).map(([at, letters, hue]) => [Number(line.limits[at]), letters, hue]) : []);

/** The least and greatest value of lines between two moments, with some room. */
function extent(lines, from, to, withLimits) {
  let low = Infinity, high = -Infinity;
  for (const line of lines) {
    for (const [time, value] of line.points) {
      if (time < from - 5 || time > to || !Number.isFinite(value)) continue;
      low = Math.min(low, value);
      high = Math.max(high, value);
    }
    if (withLimits) for (const [value] of limitsOf(line)) [low, high] = [Math.min(low, value), Math.max(high, value)];
  }
  if (low > high) return [0, 1];
  const room = (high - low || Math.abs(high) * 0.1 || 1) * 0.08;
  return [low - room, high + room];
}

/** Round values of an axis. */
function ticks(low, high, count) {
  const rough = (high - low) / count, power = 10 ** Math.floor(Math.log10(rough));
  const step = [1, 2, 5, 10].map((factor) => factor * power).find((one) => one >= rough);
  const found = [];
  for (let at = Math.ceil(low / step) * step; at <= high; at += step) found.push(Number(at.toPrecision(12)));
  return found;
}

const short = (value) => (Math.abs(value) >= 1e6 || (value && Math.abs(value) < 1e-3) ? value.toExponential(1) : String(Number(value.toPrecision(6))));

function size(canvas) {
  const ratio = devicePixelRatio || 1, width = canvas.clientWidth, height = Math.max(220, Math.min(420, innerHeight - 390));
  if (canvas.width !== Math.round(width * ratio) || canvas.height !== Math.round(height * ratio)) {
    [canvas.width, canvas.height] = [Math.round(width * ratio), Math.round(height * ratio)];
    canvas.style.height = `${height}px`;
  }
  const pen = canvas.getContext("2d");
  pen.setTransform(ratio, 0, 0, ratio, 0, 0);
  pen.clearRect(0, 0, width, height);
  pen.font = '11px system-ui, "DejaVu Sans", sans-serif';
  return [pen, width, height];
}

/** The grid: times below, values at the left. */
function grid(pen, area, frame, [low, high], hue) {
  pen.strokeStyle = style("--line");
  pen.lineWidth = 1;
  pen.textAlign = "right";
  pen.textBaseline = "middle";
  for (const value of ticks(low, high, 6)) {
    const y = area.y(value, low, high);
    pen.beginPath();
    pen.moveTo(LEFT, y);
    pen.lineTo(area.right, y);
    pen.stroke();
    pen.fillStyle = hue;
    pen.fillText(short(value), LEFT - 6, y);
  }
  pen.fillStyle = style("--soft");
  pen.textAlign = "center";
  pen.textBaseline = "top";
  const step = STEPS.find((one) => frame.span / one <= Math.max(2, (area.right - LEFT) / 90)) ?? 28800;
  for (let at = Math.ceil(frame.from / step) * step; at <= frame.to; at += step) {
    const x = area.x(at);
    pen.beginPath();
    pen.moveTo(x, TOP);
    pen.lineTo(x, area.bottom);
    pen.stroke();
    const text = new Date(at * 1000).toLocaleTimeString("en-GB", step < 1 ? { minute: "2-digit", second: "2-digit", fractionalSecondDigits: 1 } : {});
    if (x > LEFT + 20 && x < area.right - 20) pen.fillText(text, x, area.bottom + 7);
  }
}

function drawLine(pen, area, line, frame, [low, high]) {
  pen.strokeStyle = pen.fillStyle = HUES[line.hue];
  pen.lineWidth = 1.8;
  pen.beginPath();
  let isOpen = false, last = null;
  for (const [time, value] of line.points) {
    if (time < frame.from - 5 || time > frame.to) continue;
    if (!Number.isFinite(value)) {
      isOpen = false;
      continue;
    }
    last = [area.x(time), area.y(value, low, high)];
    if (isOpen) pen.lineTo(...last);
    else pen.moveTo(...last);
    isOpen = true;
  }
  pen.stroke();
  if (!last) return;
  pen.beginPath();
  pen.arc(...last, 3, 0, 7);
  pen.fill();
}

function drawLimits(pen, area, line, [low, high]) {
  pen.setLineDash([5, 4]);
  pen.lineWidth = 1;
  pen.textAlign = "right";
  pen.textBaseline = "bottom";
  let above = Infinity;
  for (const [value, letters, hue] of limitsOf(line).sort(([a], [b]) => a - b)) {
    if (value < low || value > high) continue;
    const y = area.y(value, low, high);
    pen.strokeStyle = pen.fillStyle = style(hue);
    pen.beginPath();
    pen.moveTo(LEFT, y);
    pen.lineTo(area.right, y);
    pen.stroke();
    if (above - y > 11) pen.fillText(`${letters} ${short(value)}`, area.right - 2, y - 1);
    if (above - y > 11) above = y;
  }
  pen.setLineDash([]);
}

/** Draws the lines: `frame` says the time, and `how` whether limits are in view, and each line has a scale of its own. */
export function draw(canvas, lines, frame, how) {
  const [pen, width, height] = size(canvas);
  const area = {
    right: width - RIGHT, bottom: height - BOTTOM,
    x: (time) => LEFT + ((width - LEFT - RIGHT) * (time - frame.from)) / frame.span,
    y: (value, low, high) => height - BOTTOM - ((height - TOP - BOTTOM) * (value - low)) / (high - low),
  };
  const shared = extent(lines, frame.from, frame.to, how.limits);
  const scales = lines.map((line) => (how.own ? extent([line], frame.from, frame.to, how.limits) : shared));
  grid(pen, area, frame, scales[0], how.own && lines.length > 1 ? HUES[lines[0].hue] : style("--soft"));
  pen.save();
  pen.beginPath();
  pen.rect(LEFT, TOP - 6, area.right - LEFT, area.bottom - TOP + 12);
  pen.clip();
  lines.forEach((line, at) => drawLimits(pen, area, line, scales[at]));
  lines.forEach((line, at) => drawLine(pen, area, line, frame, scales[at]));
  if (how.drag) {
    pen.fillStyle = "rgb(47 129 247 / 20%)";
    pen.fillRect(area.x(how.drag[0]), TOP, area.x(how.drag[1]) - area.x(how.drag[0]), area.bottom - TOP);
  }
  if (frame.pointer != null) {
    pen.fillStyle = style("--soft");
    pen.fillRect(area.x(frame.pointer), TOP, 1, area.bottom - TOP);
  }
  pen.restore();
}
