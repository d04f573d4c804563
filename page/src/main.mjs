// The page: one game, or a list of games of which one is chosen.
import { bytesOfBase64 } from "./bytes.mjs";
import { Helpers } from "./helper.mjs";
import { bytesOfLetters } from "./letters.mjs";
import { ENGINE, ENGINE_LENGTH, WORKER } from "./parts.mjs";
import { Player } from "./player.mjs";

const element = (id) => document.getElementById(id);
const games = JSON.parse(element("texts").textContent);
const title = document.title;
const player = new Player(new Helpers(WORKER, bytesOfLetters(ENGINE), ENGINE_LENGTH));

// Where in the page a game is.
const placeOf = (game) => `#${encodeURIComponent(game.name)}`;

// The game that the address names, or the only one.
function chosen() {
  return games.length === 1 ? games[0] : games.find((game) => placeOf(game) === location.hash);
}

// Shows the game that the address names, or the list.
async function route() {
  const game = chosen();
  element("list").hidden = game !== undefined;
  element("played").hidden = game === undefined;
  if (game === undefined) {
    player.close();
    document.title = title;
  } else {
    await player.open(bytesOfBase64(game.text));
  }
}

function listGames() {
  element("all").hidden = games.length === 1;
  element("games").replaceChildren(...games.map((game) => {
    const [item, link] = [document.createElement("li"), document.createElement("a")];
    link.textContent = game.title;
    link.href = placeOf(game);
    item.append(link);
    return item;
  }));
}

listGames();
addEventListener("hashchange", route);
route();
