// The variables that hold channels, by which a channel is called.

// The names of the variables that hold each channel, the outermost frames first.
/** @param {Goroutine[]} goroutines */
export function holdersOf(goroutines) {
  /** @type {Map<string, Set<string>>} */
  const holders = new Map();
  const variables = goroutines.flatMap(({ frames }) => [...frames].reverse().flatMap((frame) => frame.variables));
  for (const { name, value } of variables) {
    if (value.includes("/c")) holders.set(value, (holders.get(value) || new Set()).add(name));
  }
  return holders;
}

// A channel by the first variable that holds it: `done (g0/c3)`.
/**
 * @param {Map<string, Set<string>>} holders
 * @param {string} channel
 */
export function calledBy(holders, channel) {
  const [name] = holders.get(channel) || [];
  return name ? `${name} (${channel})` : channel;
}
