// The position of the first byte of each line, and then the position after the last line.
function startsOfLines(bytes) {
  const starts = [0];
  for (let at = bytes.indexOf(10); at >= 0; at = bytes.indexOf(10, at + 1)) starts.push(at + 1);
  if (starts[starts.length - 1] < bytes.length) starts.push(bytes.length);
  return Uint32Array.from(starts);
}

// Makes each drawing with a new instance of the module, because an instance gives no memory back to the browser.
onmessage = async ({ data: { module, input, words } }) => {
  let answer;
  try {
    answer = new Library(module).draw(new Uint8Array(await input.arrayBuffer()), words);
  } catch (error) {
    answer = { result: OUT_OF_MEMORY, bytes: new TextEncoder().encode(`The drawing ended: ${error.message}\n`) };
  }
  answer.starts = startsOfLines(answer.bytes);
  postMessage(answer, [answer.bytes.buffer, answer.starts.buffer]);
};
