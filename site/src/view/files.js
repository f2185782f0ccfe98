/** Files of the user's disk: chosen, or dropped on the page. */
import { onClick, typed } from "./dom.js";

/**
 * Calls a function with the files that the user chooses or drops.
 * @param {(files: File[]) => void} take
 */
export function listenToFiles(take) {
  const input = typed("file", HTMLInputElement);
  onClick("import", () => input.click());
  input.onchange = () => {
    take([...(input.files ?? [])]);
    input.value = "";
  };
  const { classList } = document.body;
  addEventListener("dragover", (event) => {
    if (!event.dataTransfer?.types.includes("Files")) return;
    event.preventDefault();
    classList.add("dropping");
  });
  addEventListener("dragleave", (event) => {
    if (!event.relatedTarget) classList.remove("dropping");
  });
  addEventListener("drop", (event) => {
    classList.remove("dropping");
    if (!event.dataTransfer?.files.length) return;
    event.preventDefault();
    take([...event.dataTransfer.files]);
  });
}

/**
 * Returns the text of a file, which is read as UTF-8 or, if it is not valid UTF-8, as Latin-1.
 * @param {File} file
 */
export async function textOf(file) {
  const bytes = await file.arrayBuffer();
  try {
    return new TextDecoder("utf-8", { fatal: true }).decode(bytes);
  } catch {
    return new TextDecoder("latin1").decode(bytes);
  }
}
