// What a program in TypeScript may write, and what it may not: `tsc --strict` takes this file as it is.
import {
  BadArgument,
  BadLine,
  BeginningComparison,
  CheckpointComparison,
  HeadComparison,
  Kind,
  LeafComparison,
  Library,
  Log,
  OperatorLog,
  PackageLog,
  Refused,
  RegistryTrees,
  Relation,
  Verdict,
  WeoldrinError,
  auditBytes,
  auditFile,
  auditMany,
  checkpointMessage,
  checkpoints,
  compareBeginnings,
  compareCheckpoints,
  compareHeads,
  compareLeaves,
  kindOf,
  leaf,
  logId,
  logOf,
  p256,
  printable,
  recordId,
  records,
  verify,
} from "weoldrin";
import type { Comparison, LogHead, Question, Release, Roots, ShownBeginning, ShownLeaf, Verify } from "weoldrin";

const always: Verify = (question: Question) => question.signature !== "";
const later: Verify = async ({ key, message, signature }) => verify(key, message, signature);

export async function program(envelope: Uint8Array, buffer: ArrayBuffer, file: File): Promise<string> {
  const library = await Library.load({ source: new URL("https://example.com/libwarg.wasm"), maximum: 1 << 26 });
  const log: PackageLog = await PackageLog.open({ library });
  await log.append(envelope);
  await log.append(buffer, always);
  await log.append(new DataView(buffer), later);
  await log.append(envelope, p256.verifyByWebCrypto);
  const question = log.ask(envelope);
  log.appendAnswered(envelope, question, await p256.verify(question, { library }));
  log.appendSigned(envelope);
  const release: Release | null = log.latest(">=1");
  const time: bigint = release?.timestamp ?? 0n;
  const content: string = release?.content ?? "none";
  for (const it of log.releases()) printable(it.version);
  for (const it of log.records()) await recordId(log.kind, it.envelope);
  const comparison: Comparison = log.compare(new PackageLog(library));
  if (comparison.relation === Relation.FORK) printable(String(comparison.left));
  const operators: OperatorLog = await OperatorLog.fromJson("{}");
  await OperatorLog.fromJson("{}", { count: 0 });
  const from: string | null | undefined = operators.namespaceState("own")?.importedFrom;
  const other: Log = await logOf(kindOf("package"));
  const exact: PackageLog = await logOf("package");
  const key = await p256.SigningKey.generate();
  const contents = records.contents(
    log.head(),
    records.now(),
    [records.grant(Kind.PACKAGE, key.publicKey, ["release"])],
  );
  await records.signed("package", contents, key.publicKey, (message) => key.sign(message));
  const checkpoint = checkpoints.parseTimestamped("{}");
  await checkpoints.isSigned(operators, { checkpoint, keyId: "x", signature: "y" }, later);
  const text: string = checkpoints.signedToJson({ checkpoint, keyId: "x", signature: "y" });
  const published: checkpoints.Published = checkpoints.parseSigned(text);
  const isSigned: boolean = operators.verifyCheckpoint(published.checkpoint, published.keyId, published.signature);
  const message: Uint8Array = await checkpointMessage(checkpoint, { library });
  const ids: string[] = [await logId("package", "example:math"), await logId(Kind.OPERATOR), library.logId("operator")];
  const bytes: Uint8Array = isSigned ? await leaf("x", "y", { library }) : library.leaf("x", "y");
  printable([...ids, message.length, bytes.length, library.checkpointMessage(checkpoint).length].join(" "));
  library.verifyInclusion("x", "y", 1, 2n ** 60n, checkpoint.logRoot, "z");
  const verdicts: Verdict[] = await auditMany([file, "x.hex"], "operator", { workers: 2, verifier: "web-crypto" });
  const verdict = await auditFile(file, "package", null, { allowEmpty: true });
  await auditBytes("x", envelope, Kind.OPERATOR);
  if (verdict.fault instanceof BadLine) printable(String(verdict.fault.line));
  try {
    other.close();
  } catch (error) {
    if (error instanceof Refused || error instanceof BadArgument) return error.sentence;
    if (error instanceof WeoldrinError) return error.name;
  }
  exact.close();
  return [time, content, from, verdicts.length, verdict.accepted].join(" ");
}

export async function registry(operators: OperatorLog, library: Library): Promise<string> {
  const trees: RegistryTrees = await RegistryTrees.open({ library });
  const place: number = trees.push(library.logId("operator"), "y");
  const { logRoot, mapRoot }: Roots = trees.roots();
  const proofs: (string | null)[] = [trees.inclusion(place), trees.inclusion(2n ** 60n), trees.consistency(0)];
  const head: LogHead = trees.head("x");
  const shown: boolean = head.recordId === null
    ? trees.library.verifyAbsence("x", mapRoot, head.proof)
    : trees.library.verifyPresence("x", head.recordId, mapRoot, head.proof);
  const checkpoint: checkpoints.TimestampedCheckpoint = trees.checkpoint(1_700_000_000);
  operators.verifyCheckpoint(trees.checkpoint(2n ** 60n), "x", "y");
  const saved: Uint8Array = trees.toBytes();
  const made: RegistryTrees = await RegistryTrees.fromBytes(saved.buffer, { library });
  const found: CheckpointComparison = library.compareCheckpoints(checkpoint, checkpoints.parse("{}"));
  if (found === CheckpointComparison.FORK || found === "goes-back") made.close();
  await compareCheckpoints(checkpoint, made.checkpoint(0), proofs[2] ?? "", { library });
  const leaf: ShownLeaf = { checkpoint, logId: "x", recordId: "y", proof: "z" };
  const leaves: LeafComparison = library.compareLeaves(place, leaf, { ...leaf, checkpoint: checkpoints.parse("{}") });
  if ((await compareLeaves(2n ** 60n, leaf, leaf)) !== leaves) printable(LeafComparison.NOT_SHOWN);
  const heads: HeadComparison = library.compareHeads(mapRoot, "x", head, { recordId: null, proof: "z" });
  if ((await compareHeads(mapRoot, "x", head, head, { library })) !== heads) printable(HeadComparison.ONE_AND_NONE);
  const beginning: ShownBeginning = { checkpoint, proof: "z" };
  const first: BeginningComparison = library.compareBeginnings(checkpoints.parse("{}"), beginning, beginning);
  if ((await compareBeginnings(checkpoint, beginning, beginning)) !== first) printable(BeginningComparison.TWO_LENGTHS);
  const length: number = trees.length;
  trees.close();
  return [logRoot, ...proofs, shown, checkpoint.logLength, length, new RegistryTrees(library).length].join(" ");
}

export function wrongTrees(trees: RegistryTrees): void {
  // @ts-expect-error: trees are opened
  new RegistryTrees();
  // @ts-expect-error: a leaf is of two ids
  trees.push("x");
  // @ts-expect-error: a place is a number
  trees.inclusion("0");
  // @ts-expect-error: there may be no proof
  trees.consistency(0).length;
  // @ts-expect-error: there may be no head
  trees.head("x").recordId.length;
  // @ts-expect-error: leaves are pushed
  trees.length = 3;
  // @ts-expect-error: a checkpoint has its time
  trees.checkpoint();
  // @ts-expect-error: leaves are bytes
  void RegistryTrees.fromBytes("00");
  // @ts-expect-error: trees that are made are waited for
  RegistryTrees.fromBytes(trees.toBytes()).close();
  // @ts-expect-error: a checkpoint has a length
  trees.library.compareCheckpoints({ logRoot: "x", mapRoot: "y" }, trees.checkpoint(0));
  // @ts-expect-error: a leaf has its checkpoint
  trees.library.compareLeaves(0, { logId: "x", recordId: "y", proof: "z" }, { logId: "x", recordId: "y", proof: "z" });
  // @ts-expect-error: no such comparison
  trees.library.compareCheckpoints(trees.checkpoint(0), trees.checkpoint(0)) === "forked";
}

export async function wrong(log: PackageLog, envelope: Uint8Array): Promise<void> {
  // @ts-expect-error: a log is opened
  new PackageLog();
  // @ts-expect-error: a log is of a kind
  new Log(log.library);
  // @ts-expect-error: bytes are no text
  await log.append("0a");
  // @ts-expect-error: an answer is true or false
  await log.append(envelope, () => 1);
  // @ts-expect-error: a promise is no answer
  log.appendAnswered(envelope, log.ask(envelope), Promise.resolve(true));
  // @ts-expect-error: there may be no release
  log.latest("*").version;
  // @ts-expect-error: a log of a package has no namespaces
  log.namespaceState("own");
  // @ts-expect-error: a log of a package lets no one sign checkpoints
  log.verifyCheckpoint(checkpoints.parseTimestamped("{}"), "x", "y");
  // @ts-expect-error: what is signed has a time
  await checkpointMessage(checkpoints.parse("{}"));
  // @ts-expect-error: a leaf is of two ids
  await leaf("x");
  // @ts-expect-error: no such kind of logs
  await logId("packages", "example:math");
  // @ts-expect-error: no such kind
  await auditFile("x", "packages");
  // @ts-expect-error: no such verifier
  await auditMany(["x"], "package", { verifier: always });
  // @ts-expect-error: a time is a bigint
  records.contents(null, 5, []);
  // @ts-expect-error: what is said is not written to
  log.ask(envelope).key = "x";
  // @ts-expect-error: a key is made or read
  new p256.SigningKey();
}
