/** Returns whether a host candidate of an interface should have this IP address (RFC 8445, section 5.1.1.1). */
export function isHostAddress(address: string): boolean;


export interface RetransmitTiming {
  initialRto: number;
  maxRto: number;
  maxRetransmits: number;
}
/** Returns how long a whole series of checks without a response takes: `iceTimeout` of an agent with these settings. */
export function retransmitTimeout(timing: RetransmitTiming): number;
/** Returns how long an agent with these settings waits after the last of `sent` checks of a pair before the next one. */
export function retransmitDelay(timing: RetransmitTiming, sent: number): number;
