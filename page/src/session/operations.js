// Which steps work on a channel.

// Says of each row whether its step makes a channel or works on it; null where no step of the log makes it. A step without a note may do so.
/**
 * @param {import("./log.js").Log} log
 * @param {(id: string) => Note | undefined} notes
 * @param {string} channel
 */
export function worksOn(log, notes, channel) {
  if (!log.channels.includes(channel)) return null;
  return (/** @type {number} */ row) => notes(log.id(row))?.channels.includes(channel) ?? true;
}
