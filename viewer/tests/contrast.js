// The contrast of each piece of text that is shown, in HTML and in the tree, with what it stands on.
const channel = (value) => (value / 255 <= 0.03928 ? value / 255 / 12.92 : ((value / 255 + 0.055) / 1.055) ** 2.4);
const luminance = ([red, green, blue]) => 0.2126 * channel(red) + 0.7152 * channel(green) + 0.0722 * channel(blue);
const numbers = (colour) => (colour.match(/[\d.]+/g) ?? []).map(Number);
const isOpaque = (colour) => numbers(colour).length === 3 || numbers(colour)[3] > 0.9;

function groundOf(element) {
  const box = element.closest(".fold, .strip, .tag") ?? element.closest(".node");
  if (box && element.closest("svg")) {
    const rect = box.matches(".node") ? box.querySelector(".box") : box.querySelector("rect");
    if (getComputedStyle(rect).fill !== "none") return getComputedStyle(rect).fill;
  }
  for (let at = element; at; at = at.parentElement) {
    const { backgroundColor } = getComputedStyle(at);
    if (backgroundColor !== "rgba(0, 0, 0, 0)" && isOpaque(backgroundColor)) return backgroundColor;
  }
  return "rgb(255, 255, 255)";
}

const pairs = new Map();
for (const element of document.querySelectorAll("body *")) {
  const text = [...element.childNodes].filter((node) => node.nodeType === 3).map((node) => node.data.trim()).join("");
  if (!text || element.matches("script, title, option") || element.getClientRects().length === 0 || element.disabled) continue;
  const colour = element.closest("svg") ? getComputedStyle(element).fill : getComputedStyle(element).color;
  const ground = groundOf(element);
  const lights = [luminance(numbers(colour)), luminance(numbers(ground))].sort((one, other) => other - one);
  pairs.set(`${colour} ${ground}`, { text, colour, ground, ratio: (lights[0] + 0.05) / (lights[1] + 0.05) });
}
return [...pairs.values()];
