// Questions to the server that this page came from, and to no other.

import { find } from "./dom.js";

const TOKEN = "catalogue-token";

// The token that a person gave, kept for the tab alone.
export function headers() {
  const token = sessionStorage.getItem(TOKEN);
  return token ? { Authorization: `Bearer ${token}` } : {};
}

let asking;

// Asks for a token, once for all that wait.
function tokenGiven() {
  const [dialog, field] = [find("token"), find("token-field")];
  asking ??= new Promise((done) => {
    field.value = "";
    dialog.returnValue = "";
    dialog.showModal();
    dialog.addEventListener("close", () => {
      const given = dialog.returnValue === "use" && field.value !== "";
      if (given) sessionStorage.setItem(TOKEN, field.value.trim());
      asking = undefined;
      done(given);
    }, { once: true });
  });
  return asking;
}

export async function ask(path, options) {
  const response = await fetch(path, { cache: "no-store", headers: headers(), ...options });
  const text = await response.text();
  if (response.ok) return text;
  if (response.status === 401 && await tokenGiven()) return ask(path, options);
  throw Object.assign(new Error(/"message":"([^"]*)/.exec(text)?.[1] ?? text), { status: response.status });
}

export const get = async (path) => JSON.parse(await ask(path));

export const post = async (path, body, reviver) => JSON.parse(await ask(path, { method: "POST", body: JSON.stringify(body) }), reviver);

// Keeps whole numbers past 2^53 as they are written, where the browser can.
export const exact = (key, value, context) =>
  (typeof value === "number" && !Number.isSafeInteger(value) && JSON.rawJSON ? JSON.rawJSON(context.source) : value);

export const around = async (entityRefs) => (await post("/entities/by-refs", { entityRefs, fields: ["relations"] })).items;
