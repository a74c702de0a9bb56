// The sentences that the web page and the hunt both say, so that both say the same. What stands between the braces is JSON: demo/match.py reads it
// too. A name in braces inside a sentence is put in by whoever says it.
export const WORDS = {
    "piece": "The piece lies on {place}. Its value is {value}.",
    "caution": "Nothing checks yet that one dealing made these keys: compare each fingerprint with the one written down when the keys were dealt.",
    "several": "{count} squares are not zero: a byte was changed, or these keys are not of one dealing.",
    "zero": "Every square is zero: the hidden value is zero, a byte was changed, or these keys are not of one dealing.",

    "square": "square {position} (line {line}, column {column})",
    "square with sensor": "square {position} (line {line}, column {column}, sensor {sensor})",

    "no digit": "{where}: “{sign}” is no hexadecimal digit",
    "odd digits": "{where}: an odd number of hexadecimal digits ({count}): one is missing, or one is too many",
    "fingerprint": "{where}: this is a fingerprint, not a key",
    "left out": "{where}: not read, since a line among them cannot be",
    "more wrong": "{where}: {count} more places cannot be read",
    "empty": "{where} is empty",
    "too long": "{where} is too long: no board has so many bytes of keys",

    "no key": "this is no key: it does not begin as a key does",
    "no such player": "this key is of a player that its board does not have",
    "cut short": "this key has {bytes} bytes and asks for {asked}: it was cut short, or its beginning was changed",
    "too many bytes": "this key has {bytes} bytes and asks for {asked}: bytes were added, or its beginning was changed",
    "damaged": "this key is damaged: at least one of its bytes was changed",
    "other players": "this key is of a board for {players} players",
    "other squares": "this key is of a board of {positions} squares",
    "other width": "this key is of a board whose grid is {width} wide",
    "other value": "this key is of a board with values of {valueBytes} bytes",
    "other label": "this line says player {label}, and the key is player {player}’s",
    "copy": "player {player}’s key is here twice, the same both times",
    "conflict": "player {player}’s key is here twice, and the two are not the same",
    "missing": "player {player}’s key is missing",
    "several missing": "the keys of players {players} are missing",

    "numbers": ["no", "one", "two", "three", "four", "five", "six"]
};
