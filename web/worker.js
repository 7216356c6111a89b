// Runs commands beside the page, which stays free meanwhile. A message has words and files; the answer has the same number.
import { load } from './library.js';

const library = load();

onmessage = async ({ data: { number, words, files } }) => {
  try {
    postMessage({ number, ...(await library).run(words, files) });
  } catch (error) {
    postMessage({ number, failed: String(error.message || error) });
  }
};
