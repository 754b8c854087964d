// Checks names, roles, contrast, the order of focus and the size of targets. Its value is JSON.
(() => {
  const faults = [], isShown = (element) => element.getClientRects().length > 0 && getComputedStyle(element).visibility !== "hidden";
  const all = (selector) => [...document.querySelectorAll(selector)].filter(isShown);
  const describe = (element) => `${element.tagName.toLowerCase()} ${element.id || element.textContent.trim().slice(0, 30)}`;
  const nameOf = (element) => (element.getAttribute("aria-label") ?? [...(element.labels ?? [])].map((label) => label.textContent).join(" ") + (element.tagName === "INPUT" ? "" : element.textContent)).trim();
  const controls = all("a[href], button, input, select, textarea, summary, progress");
  for (const each of controls) if (!nameOf(each)) faults.push(`no name: ${describe(each)}`);
  for (const each of all("section[aria-labelledby]")) if (!document.getElementById(each.getAttribute("aria-labelledby"))) faults.push(`no name: ${describe(each)}`);
  for (const each of all("th")) if (!each.scope) faults.push(`role: ${describe(each)} has no scope`);
  for (const [role, count] of [["main", 1], ["header", 1], ["footer", 1], ["h1", 1], ["[role=status]", 1]]) if (document.querySelectorAll(role).length !== count) faults.push(`role: ${role}`);
  if (!document.documentElement.lang || !document.title) faults.push("no language or title");
  const levels = all("h1, h2, h3").map((each) => Number(each.tagName[1]));
  levels.forEach((level, nth) => { if (nth && level > levels[nth - 1] + 1) faults.push(`role: a heading of level ${level} after ${levels[nth - 1]}`); });
  const ordered = all("[tabindex]").filter((each) => each.tabIndex > 0);
  if (ordered.length) faults.push(`order: ${describe(ordered[0])}`);
  for (const each of controls.filter((control) => control.tagName !== "PROGRESS")) {
    const { width, height } = each.getBoundingClientRect();
    if ((width < 24 || height < 24) && !each.matches(".skip")) faults.push(`target: ${describe(each)} ${Math.round(width)} x ${Math.round(height)}`);
  }
  if (document.documentElement.scrollWidth > innerWidth + 1) faults.push(`wide: ${document.documentElement.scrollWidth} of ${innerWidth}`);
  const canvas = document.createElement("canvas").getContext("2d", { willReadFrequently: true });
  const colour = (value) => { canvas.clearRect(0, 0, 1, 1); canvas.fillStyle = value; canvas.fillRect(0, 0, 1, 1); return [...canvas.getImageData(0, 0, 1, 1).data]; };
  const light = ([r, g, b]) => [r, g, b].map((value) => value / 255).map((value) => (value <= 0.04045 ? value / 12.92 : ((value + 0.055) / 1.055) ** 2.4)).reduce((sum, value, nth) => sum + value * [0.2126, 0.7152, 0.0722][nth], 0);
  const backOf = (element) => { for (let at = element; at; at = at.parentElement) { const back = colour(getComputedStyle(at).backgroundColor); if (back[3] === 255) return back; } return colour("Canvas"); };
  let texts = 0;
  for (const each of all("body *")) {
    if (![...each.childNodes].some((node) => node.nodeType === 3 && node.data.trim()) || each.matches("option, .skip, .vh")) continue;
    texts++;
    const [a, b] = [light(colour(getComputedStyle(each).color)), light(backOf(each))].sort((x, y) => y - x);
    if ((a + 0.05) / (b + 0.05) < 4.5) faults.push(`contrast: ${describe(each)} ${((a + 0.05) / (b + 0.05)).toFixed(2)}`);
  }
  return JSON.stringify({ faults, controls: controls.length, texts });
})();
