// What node.d.ts needs of Node's types, where @types/node is not installed.
declare module "node:events" {
  export class EventEmitter {
    emit(name: string, ...values: unknown[]): boolean;
  }
}
