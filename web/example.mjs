// Hides a piece on the spring board, drawn from the system, opens its square with each of four keys, and joins all keys.
import { load } from 'nosingginger';
import { randomDealing, systemBytes } from 'nosingginger/draw';

const nosingginger = await load();
const width = nosingginger.chooseWidth({ players: 4, positions: 72, valueBytes: 1 });
const board = { players: 4, positions: 72, width, valueBytes: 1 };
const dealing = randomDealing(board, systemBytes);
const [keys, length] = [nosingginger.deal(dealing), nosingginger.keyLength(board)];
const shares = [0, 1, 2, 3].map((player) => nosingginger.openOne(keys.subarray(player * length, (player + 1) * length), dealing.point)[0]);
console.log(`On square ${dealing.point} the players see ${shares.join(', ')}: noise, each alone.`);
const [value] = nosingginger.joinShares({ players: 4, valueBytes: 1, shares: Uint8Array.from(shares) });
const table = nosingginger.joinKeys(keys);
const marked = [...table.keys()].filter((square) => table[square] !== 0);
console.log(`Together that is ${value}. All keys joined are zero on every square but ${marked.join(', ')}.`);
