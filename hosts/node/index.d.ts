/** The limits of a call: fuel in units, and nested calls (1 to 128). */
export interface Limits { fuel?: number | bigint; depth?: number }
export interface Aborts { signal?: AbortSignal }
export interface Reply { value: number; bytes: Buffer; used: bigint }
export interface LoopOptions extends Limits {
  /** Of each work request. */
  workFuel?: number | bigint;
  /** Called with the values of each callback that emits. */
  onEmit?: (values: bigint[]) => void;
  /** Units between two looks at Node's own loop: 100,000. */
  units?: number | bigint;
  /** Closes the loop, with its reason. */
  signal?: AbortSignal;
}
/** An i32 is a number, an i64 a bigint. */
export type Value = number | bigint;

/** A guest that did not return: `ending` is trap, depth, spent or memory. */
export class Stopped extends Error { readonly ending: string; readonly where?: string; readonly used?: bigint }

/** Bytes of a module; an Error with the code REFUSED if they are none. It may be used by many jobs, instances and loops at once. */
export class Module {
  constructor(bytes: Uint8Array);
  /** The type of an exported function, each parameter and result by its number of bits; null if there is none. */
  type(name: string): { params: (32 | 64)[]; results: (32 | 64)[] } | null;
  /** The exports, in the module's order. */
  readonly exports: { name: string; kind: 'function' | 'table' | 'memory' | 'global' }[];
  instance(limits?: Limits): Instance;
  loop(options?: LoopOptions): Loop;
  /** Runs uv_work on fresh memory, on the thread pool. */
  work(operation: number, bytes?: Uint8Array, options?: Limits & Aborts): Promise<Reply>;
}

/** Keeps its memory from call to call. */
export class Instance {
  constructor(module: Module, limits?: Limits);
  readonly fuel: number | bigint;
  readonly depth: number;
  /** Calls an exported function in this thread: undefined without a result, an array with more than one. */
  call(name: string, ...args: Value[]): Value | Value[] | undefined;
  /** The same on the thread pool. An abort ends the call; the instance keeps its state. */
  callAsync(name: string, args?: Value[], options?: Aborts): Promise<Value | Value[] | undefined>;
  read(at: number, length: number): Buffer;
  write(at: number, bytes: Uint8Array): void;
}

/** A guest's loop, on Node's own; its work requests run on the thread pool. */
export class Loop {
  constructor(module: Module, options?: LoopOptions);
  /** Resolves when the loop is over; rejects with Stopped if a callback fails, or with what close was given. */
  readonly done: Promise<void>;
  /** How many requests have work on the pool: at most 32. */
  readonly working: number;
  /** Sends to the guest's async of this number, from 0. */
  send(number: number): void;
  /** Submits a work request: its number, or an error of the guest's interface below 0. Rejects if the loop has ended. */
  request(operation: number, bytes?: Uint8Array): Promise<number>;
  /** Cancels a request, and ends its work: 0, or an error of the guest's own cancel. Rejects if the loop has ended. */
  cancel(request: number): Promise<number>;
  /** Ends the loop and its work: `done` rejects with this, unless it is settled. */
  close(why?: unknown): void;
}
