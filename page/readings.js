/* What a reading of a text gives: bundles, ports, and what the ends of a port say; whatever a text does not have is null. */

export const NO_ADDRESS = "00:00:00:00:00:00";
/* The bits of a state, from the first. */
export const TEXT_BITS = { ACTIVE: 1, SHORT: 2, AGGREGATABLE: 4, SYNCHRONIZED: 8, COLLECTING: 16, DISTRIBUTING: 32, DEFAULTED: 64, EXPIRED: 128 };

export const macOf = (text) => (text ?? "").replace(/[^0-9a-f]/gi, "").toLowerCase().replace(/..(?!$)/g, "$&:");
export const numberOf = (text) => text === undefined || text === null || text === "" || Number.isNaN(Number(text)) ? null : Number(text);

/* A bundle with what a form has of it. */
export const bundleOfText = (name, told, ports, given) => ({ name, told, ports, hash: null, isCut: false, cut: "", ...given });

/* A port with what a form has of it. */
export const portOfText = (given) => ({
    link: null, isCut: false, isAway: false, isWaiting: false, isOff: false, isHeld: false, isSetDown: null, source: "", actor: null, partner: null, aggregator: null, isUsed: null, isAlone: false, isLasting: false, speed: "", says: "", facts: [], advice: "", ...given,
});
