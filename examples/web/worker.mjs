// Runs a module that the page sends, and sends back what it puts out, and its status.

import { start } from "../programs/wasi.mjs";

onmessage = async ({ data: { bytes, words, text } }) => {
  let rest = new TextEncoder().encode(text);
  const take = (most) => {
    const taken = rest.subarray(0, most);
    rest = rest.subarray(taken.length);
    return taken;
  };
  const put = (fd, piece) => postMessage({ fd, piece });
  const { status, error } = await start(bytes, words, { take, put });
  postMessage({ status, error: error && String(error) });
};
