// What is done before the page's scripts are there: the engine starts, and what can't be loaded is said.

window.earlyWorker = new Worker('worker.mjs', { type: 'module' });

document.addEventListener('error', ({ target }) => {
  if (target.tagName === 'SCRIPT') document.getElementById('notice').hidden = false;
}, true);
