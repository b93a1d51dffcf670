// All tests of the module in one process, so that the last one knows which calls were made.
//
// usage: node --expose-gc --test js/tests
import { init } from "is-ice";
import { allMade, recorded } from "./surface.js";

await init();
recorded();
for (const name of ["agent", "candidates", "stun", "servers", "loading", "loop", "server_loop", "memory"]) await import(`./${name}.js`);
allMade();
