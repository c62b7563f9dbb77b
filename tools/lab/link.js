// Opens the scenario of a link in the lab that this browser used last at this port, or in one whose address is pasted.
import { KEPT } from "./kept.js";

const ADDRESS = /^https?:\/\/(127\.0\.0\.1|localhost):\d+\/[\w-]+\//;
const get = (id) => document.getElementById(id);

/** Opens the lab of the path that is kept, if that lab still runs. */
async function openKept() {
  const path = localStorage.getItem(KEPT);
  if (!path) return;
  const answer = await fetch(path);
  if (answer.ok) location.replace(path + location.hash);
  else localStorage.removeItem(KEPT);
}

get("form").addEventListener("submit", (event) => {
  event.preventDefault();
  const found = ADDRESS.exec(get("address").value.trim());
  if (found) location.href = found[0] + location.hash;
  else get("said").textContent = "This is no address of a lab: it begins with http://127.0.0.1: and holds a long word.";
});
openKept();
