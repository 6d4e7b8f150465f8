// Does with the page what a user does: chooses a module, fills in arguments and input, presses Run, and reads what is shown. For a run
// that doesn't end it presses Stop. The cases come from test.py, which serves all of this, and what was shown goes back to it.

const soon = () => new Promise((done) => setTimeout(done, 50));

async function opened() {
  const frame = document.createElement("iframe");
  frame.src = "/examples/web/index.html";
  const loaded = new Promise((done) => { frame.onload = done; });
  document.body.append(frame);
  await loaded;
  return frame;
}

async function shown({ merged, args, input, stopped }) {
  const frame = await opened();
  const at = (name) => frame.contentDocument.getElementById(name);
  const chosen = new DataTransfer();
  chosen.items.add(new File([await (await fetch(merged)).arrayBuffer()], "merged.wasm"));
  at("module").files = chosen.files;
  at("args").value = args;
  at("input").value = input;
  at("run").requestSubmit();
  if (stopped) {
    while (at("stop").disabled) await soon();
    at("stop").click();
  }
  while (!at("ended").textContent) await soon();
  const told = { output: at("output").textContent, ended: at("ended").textContent };
  frame.remove();
  return told;
}

const told = [];
for (const given of await (await fetch("/cases.json")).json()) told.push(await shown(given));
await fetch("/told", { method: "POST", body: JSON.stringify(told) });
