// TypeScript's library, from Debian's node-typescript. Where there is none, that is said, and the program ends.
const places = ['typescript', '/usr/share/nodejs/typescript', '/usr/lib/nodejs/typescript'];
const isThere = (place) => {
  try { return require.resolve(place); } catch (e) { return undefined; }
};
const found = places.find(isThere);
if (!found) {
  console.log('no typescript here: apt-get install node-typescript');
  process.exit(0);
}
module.exports = require(found);
