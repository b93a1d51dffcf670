// The structs of is_ice.h in the module's memory, by the table that a script makes of the header.
import { STRUCTS } from "./abi.js";
import { addressAt, putAddress } from "./address.js";
import { fromCount, small, toCount, toMs, toNs, whole } from "./numbers.js";

/** What a number of 64 bits is, by its name: a time or duration, a number of 64 bits (a BigInt), or else a count. */
const MS = { read: toMs, write: toNs };
const BITS = { read: (value) => value, write: (value, name) => whole(value, name) };
const COUNT = { read: fromCount, write: toCount };
function unitOf(name) {
  if (/(timeout|advance|rto|rtt|delay|lastRequest|due)$/i.test(name)) return MS;
  return name === "priority" || name === "value" ? BITS : COUNT;
}

const TABLE = Object.fromEntries(Object.entries(STRUCTS).map(([kind, [size, ...fields]]) =>
  [kind, { size, fields: fields.map(([name, offset, type]) => ({ name, offset, type, unit: unitOf(name) })) }]));

function readField(memory, { type, unit }, from) {
  const { view } = memory;
  switch (type) {
    case "bool": return view.getUint8(from) !== 0;
    case "u8": return view.getUint8(from);
    case "u16": return view.getUint16(from, true);
    case "u32": return view.getUint32(from, true);
    case "i32": return view.getInt32(from, true);
    case "u64": return unit.read(view.getBigUint64(from, true));
    case "Address": return addressAt(memory, from);
    case "u8[12]": return memory.bytes.slice(from, from + 12);
    default: return readStruct(memory, type, from);
  }
}

function writeField(memory, { name, type, unit }, to, value) {
  const { view } = memory;
  switch (type) {
    case "bool": return view.setUint8(to, value ? 1 : 0);
    case "u8": return view.setUint8(to, small(value, name, 8));
    case "u16": return view.setUint16(to, small(value, name, 16), true);
    case "u32": return view.setUint32(to, small(value, name, 32), true);
    case "i32": return view.setInt32(to, small(value, name, 31), true);
    case "u64": return view.setBigUint64(to, unit.write(value, name), true);
    case "Address": return putAddress(memory, to, value);
    case "u8[12]": return memory.bytes.set(value, to);
    default: return writeStruct(memory, type, to, value);
  }
}

/** Reads a struct: an object with the fields of the header in camelCase. */
export function readStruct(memory, kind, from = memory.result.at) {
  const found = {};
  for (const field of TABLE[kind].fields) found[field.name] = readField(memory, field, from + field.offset);
  return found;
}

/** Writes a struct. A field that is undefined or null is zero. */
export function writeStruct(memory, kind, to, values) {
  const { size, fields } = TABLE[kind];
  memory.bytes.fill(0, to, to + size);
  for (const field of fields) {
    const value = values[field.name];
    if (value !== undefined && value !== null) writeField(memory, field, to + field.offset, value);
  }
}

/** The names of a struct's fields. */
export const namesOf = (kind) => TABLE[kind].fields.map(({ name }) => name);
