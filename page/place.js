// Learns where the feed is without its documents: a place ahead of it is refused with its own. It is a worker, since a browser
// shows what is refused to a page as an error.

const LAST = "18446744073709551615";

async function placeIn(epoch, headers) {
  const answer = await (await fetch(`/changes?since=${epoch}.${LAST}`, { headers })).json();
  const [rule, place = ""] = answer.error?.message.split(" ") ?? [];
  return rule === "gone" && place.split(".")[0] !== epoch ? placeIn(place.split(".")[0], headers) : answer.to ?? place;
}

addEventListener("message", async ({ data }) => postMessage(await placeIn("0", data).catch(() => "")));
