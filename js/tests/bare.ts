// Compiles under `tsc --strict` without the types of browsers and of Node.
import { IceAgent, init, type IceAgentEvent } from "is-ice";

await init(new Uint8Array(8));
const agent = new IceAgent(), event: IceAgentEvent | null = agent.pollEvent();
if (event?.type === "iceRestart") agent.setRemoteCredentials(event.creds);
agent[Symbol.dispose]();
