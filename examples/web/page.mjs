// Runs the chosen module in a worker over the text of the page, and shows what it puts out as it comes, and its status.

const [form, module, args, input, stop, output, ended] =
  ["run", "module", "args", "input", "stop", "output", "ended"].map((name) => document.getElementById(name));
let worker;

function end(text) {
  worker?.terminate();
  worker = undefined;
  stop.disabled = true;
  ended.textContent = text;
}

function show(text, name) {
  const piece = document.createElement("span");
  piece.className = name;
  piece.textContent = text;
  output.append(piece);
}

function run(bytes, words, text) {
  // a letter may be cut in two
  const decoders = { 1: new TextDecoder(), 2: new TextDecoder() };
  worker = new Worker("worker.mjs", { type: "module" });
  worker.onerror = ({ message }) => end(`not run: ${message}`);
  worker.onmessage = ({ data: { fd, piece, status, error } }) => {
    if (fd) show(decoders[fd].decode(piece, { stream: true }), fd === 1 ? "output" : "errors");
    else end(`status ${status}${error ? `: ${error}` : ""}`);
  };
  worker.postMessage({ bytes, words, text });
}

form.addEventListener("submit", async (event) => {
  event.preventDefault();
  end("");
  output.textContent = "";
  const bytes = await module.files[0].arrayBuffer();
  stop.disabled = false;
  run(bytes, args.value.split(" ").filter((word) => word), input.value);
});
stop.addEventListener("click", () => end("stopped"));
