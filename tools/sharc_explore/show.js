// What is linked to or printed is opened; n and p go to the next and the previous finding.
const all = selector => [...document.querySelectorAll(selector)];
const open = () => all(`details[id="${location.hash.slice(1)}"]`).forEach(one => { one.open = true; });
addEventListener('hashchange', open);
open();
addEventListener('beforeprint', () => all('details').forEach(one => { one.open = true; }));
addEventListener('keydown', event => {
  const heads = all('.finding > summary, .output > summary'), at = heads.indexOf(document.activeElement);
  const to = { n: at + 1, p: at < 0 ? heads.length - 1 : at - 1 }[event.key];
  if (to !== undefined && !event.ctrlKey && !event.metaKey && !event.altKey) heads[to]?.focus();
});
