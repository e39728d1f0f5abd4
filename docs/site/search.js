// Finds the parts of pages that have all words of the search.
const field = document.getElementById("search");
const found = document.getElementById("found");

// How many parts are shown at most, and how many characters of each.
const SHOWN = 20, AROUND = 60;

function rank([, heading, text], words) {
  const parts = [heading.toLowerCase(), text.toLowerCase()];
  if (!words.every((word) => parts.some((part) => part.includes(word)))) return 0;
  // A heading that has the word says more than a text.
  return words.reduce((sum, word) => sum + (parts[0].includes(word) ? 10 : 1), 0);
}

function item([target, heading, text], words) {
  const at = Math.max(0, text.toLowerCase().indexOf(words[0]) - AROUND);
  const link = document.createElement("a");
  link.href = field.dataset.top + target;
  link.textContent = heading;
  const line = document.createElement("li");
  line.append(link, document.createElement("br"), text.slice(at, at + 2 * AROUND));
  return line;
}

field.addEventListener("input", () => {
  const words = field.value.toLowerCase().split(/\s+/).filter(Boolean);
  const ranked = words.length ? PARTS.map((part) => [rank(part, words), part]).filter(([value]) => value) : [];
  ranked.sort(([one], [other]) => other - one);
  found.replaceChildren(...ranked.slice(0, SHOWN).map(([, part]) => item(part, words)));
  if (words.length && !ranked.length) found.textContent = "Nothing has all these words.";
});
