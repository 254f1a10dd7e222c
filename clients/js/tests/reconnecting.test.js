/** Lost connections: no change is lost, and none is made twice. */

import assert from "node:assert/strict"
import test from "node:test"
import { LIMIT, numbersFrom, waitUntil } from "./checks.js"
import { verdictOf } from "./program.js"
import { CUT_AFTER, CUT_BEFORE, CUT_LATE, PASS } from "./proxy.js"
import { agree, enter, operations, sitesOf, versionsOf, withProxy } from "./rooms.js"

/** The proxy cuts each request in turn, before or after it reached the server. The client keeps its site. */
const cutOnce = (what) => async (proxy, room, other) => {
  proxy.cutOnce('["new"', what)
  const made = room.create("rect", { x: 0 })
  await made.done
  await waitUntil("the connection is back", () => room.state === "open")
  assert.equal(room.site, 1, "the site")
  assert.deepEqual(made.name, [1, 1], "the object's name")
  proxy.cutOnce('["put"', what)
  const put = room.put(made.name, [], { x: 5, y: 7 })
  const behind = room.set(made.name, put.version, "fill", "red")
  await Promise.all([put.done, behind.done])
  const line = room.create("line")
  await line.done
  proxy.cutOnce('["drop"', what)
  const drop = room.drop(line.name, [])
  await drop.done
  assert.deepEqual(room.versions(line.name).map(({ isGone }) => isGone), [true], "the dropped one")
  proxy.cutOnce('["wait"', what)
  await room.set(made.name, [], "y", 8).done
  await waitUntil("a wait was cut", () => proxy.cuts === 4)
  proxy.cutOnce('["back"', what)
  proxy.cut()
  await waitUntil("a coming back was cut", () => proxy.cuts === 5)
  await waitUntil("the connection is back", () => room.state === "open")
  room.set(made.name, [], "x", 6)
  await agree(room, other)
  assert.deepEqual(operations(other).map(([word, , , ...rest]) => [word, rest.at(-1)]), [
    ["new", [["x", 0]]], ["put", [["x", 5], ["y", 7]]], ["put", [["fill", "red"]]], ["new", []], ["drop", []],
    ["put", [["y", 8]]], ["put", [["x", 6]]],
  ], "the changes")
  const one = [[[], [["fill", "red"], ["x", 6], ["y", 8]]]]
  assert.deepEqual([versionsOf(room, made.name), versionsOf(other, made.name)], [one, one], "what both show")
  assert.deepEqual(room.refused, [], "the refusals")
  assert.deepEqual(sitesOf(other), [1, 2], "the sites")
}

/** A join whose reply is lost uses up a site; a join that did not reach the server does not. */
const joinCut = (what) => async (proxy) => {
  proxy.cutOnce('["join"', what)
  const late = await enter(proxy.address)
  assert.deepEqual(late.site, what === CUT_AFTER ? 4 : 3, "the site")
  late.close()
}

/** A change is still on its way when its connection is lost. The client waits until the old session has ended. */
test("a change on its way at the cut", LIMIT, withProxy(async (proxy, room, other) => {
  proxy.cutOnce('["new"', CUT_LATE)
  const made = room.create("rect")
  await made.done
  await agree(room, other)
  assert.deepEqual([made.name, operations(other).length], [[1, 1], 1], "the object")
  assert.deepEqual([room.site, sitesOf(other)], [1, [1, 2]], "the site")
}))

/** Changes made without a connection are sent once there is one. They conflict with concurrent changes of others. */
test("changes without a connection", LIMIT, withProxy(async (proxy, room, other) => {
  const made = room.create("rect", { x: 0 })
  await agree(room, other)
  proxy.whatToDo = () => CUT_BEFORE
  proxy.cut()
  await waitUntil("the connection is lost", () => room.state !== "open")
  const put = room.set(made.name, [], "x", 5)
  const second = room.create("line")
  room.set(second.name, [], "y", 1)
  await other.set(made.name, [], "x", 9).done
  assert.deepEqual(versionsOf(room, made.name), [[[], [["x", 5]]]], "what is shown meanwhile")
  const [looked] = room.versions(made.name)
  const renamed = new Map()
  room.on("change", (news) => news.renamed.forEach(([old, name]) => renamed.set(`${old}`, `${name}`)))
  proxy.whatToDo = () => PASS
  await agree(room, other)
  assert.deepEqual([[...renamed], put.name, second.name], [[], [1, 2], [1, 3]], "the names")
  const two = [[[[1, 2]], [["x", 5]]], [[[2, 1]], [["x", 9]]]]
  assert.deepEqual([versionsOf(room, made.name), versionsOf(other, made.name)], [two, two], "what both show")
  assert.deepEqual(room.successors(made.name, looked).map(({ id }) => id), [[put.name]], "what became of the version")
  assert.deepEqual([room.objects(), other.objects()], Array(2).fill([[1, 1], [1, 3]]), "the objects")
  assert.deepEqual(versionsOf(other, second.name), [[[], [["y", 1]]]], "the second")
}))

/** Two clients draw while the connection of one is cut at random messages. */
test("cuts by chance", LIMIT, withProxy(async (proxy, room, other, server, t) => {
  const seed = Number(process.env.SEED ?? Date.now() % 1000000)
  const draw = numbersFrom(seed)
  console.log(`cuts by chance: seed ${seed}`)
  const made = other.create("rect")
  await agree(room, other)
  proxy.whatToDo = () => (proxy.cuts < 60 ? [CUT_BEFORE, CUT_AFTER, PASS, PASS, PASS, PASS][draw(6)] : PASS)
  const expected = []
  let drops = 0
  const releases = []
  for (let value = 0; value < 120; value++) {
    const author = draw(3) > 0 ? room : other
    if (draw(3) === 0) releases.splice(0).forEach((release) => release())
    if (draw(5) === 0) releases.push(author.hold())
    const objects = author.objects()
    const object = objects[draw(objects.length)]
    const versions = author.versions(object).filter(({ isGone }) => !isGone)
    const version = versions[draw(Math.max(1, versions.length))]
    const what = version === undefined ? 0 : draw(8)
    if (what === 0) author.create("rect", { value })
    else if (what === 1) author.drop(object, version)
    else author.set(object, version, ["x", "y"][draw(2)], value)
    if (what === 1) drops += 1
    else expected.push(value)
    if (draw(3) === 0) await new Promise((resolve) => setTimeout(resolve, draw(30)))
  }
  releases.forEach((release) => release())
  await agree(room, other)
  const [, ...changes] = operations(other)
  const dropped = changes.filter(([word]) => word === "drop")
  const values = changes.filter(([word]) => word !== "drop").map((entry) => entry.at(-1)[0][1])
  assert.deepEqual([...values].sort((one, next) => one - next), expected, "the values, each once")
  assert.deepEqual(dropped.length, drops, "the drops")
  assert.deepEqual(sitesOf(other), [1, 2], "the sites")
  const late = await enter(server.address)
  for (const object of other.objects()) {
    const versions = versionsOf(other, object)
    assert.deepEqual([versionsOf(room, object), versionsOf(late, object)], [versions, versions], `object ${object}`)
  }
  late.close()
  assert.deepEqual([room.refused, other.refused], [[], []], "the refusals")
  assert.ok(proxy.cuts > 5, "the connection was cut")
  t.diagnostic(`${expected.length} values, ${drops} drops, ${proxy.cuts} cuts, ${other.record.length} entries`)
}))

/** A restarted server has a new room. The client drops the state of the old one and reports it with its text. */
test("a restarted server", LIMIT, withProxy(async (proxy, room, other, server) => {
  const resets = []
  const loaded = []
  room.on("reset", (news) => resets.push(news))
  room.on("progress", (news) => loaded.push(news))
  const made = room.create("rect")
  await agree(room, other)
  other.close()
  await server.end()
  await waitUntil("the connection is lost", () => room.state !== "open")
  const lost = room.set(made.name, [], "x", 1)
  await server.listen(10)
  await waitUntil("the refusal", () => room.refused.length > 0)
  await waitUntil("the connection is back", () => room.state === "open")
  const word = await lost.done.catch((refusal) => refusal.word)
  assert.deepEqual([room.refused, word], [["another-room"], "another-room"], "the refusal")
  const lines = [
    '["join",1]', '["join",2]', '["new",[1,1],[],"rect",[]]', '["put",[1,2],[[1,1]],[1,1],[],[["x",1]]]', "",
  ]
  assert.deepEqual(resets.map(({ text }) => text), [lines.join("\n")], "the texts of the resets")
  assert.deepEqual(loaded, [
    { have: 0, of: 1, isLoaded: false }, { have: 1, of: 1, isLoaded: true },
  ], "how the new one is loaded")
  assert.equal(verdictOf(resets[0].text), "holds", "the verdict on it")
  assert.ok(resets[0].words.startsWith("The room was started again"), "the words of the news")
  assert.deepEqual([room.objects(), room.record, room.has(made.name)], [[], [["join", 1]], false], "what is left")
  const anew = room.create("line")
  await anew.done
  assert.deepEqual([room.objects(), room.record.length], [[[1, 1]], 2], "a new object")
}))

/** The old site may be another client's in the new room. */
test("a restarted server, with another client's site", LIMIT, withProxy(async (proxy, room, other, server) => {
  const resets = []
  room.on("reset", ({ text }) => resets.push(text))
  await room.create("rect").done
  await waitUntil("the record", () => room.record.length === 3)
  proxy.whatToDo = () => CUT_BEFORE
  other.close()
  await server.end()
  await server.listen(10)
  const first = await enter(server.address)
  for (const kind of ["line", "line", "line"]) await first.create(kind).done
  first.close()
  proxy.whatToDo = () => PASS
  await waitUntil("the news", () => resets.length > 0)
  await waitUntil("the connection is back", () => room.state === "open")
  assert.deepEqual(resets, ['["join",1]\n["join",2]\n["new",[1,1],[],"rect",[]]\n'], "the texts of the resets")
  assert.equal(room.site, 2, "the site")
  const kinds = room.objects().map((name) => [name, room.kind(name)])
  assert.deepEqual(kinds, [1, 2, 3].map((seq) => [[1, seq], "line"]), "the objects")
  await room.create("rect").done
  assert.deepEqual(room.record.at(-1), ["new", [2, 1], [[1, 3]], "rect", []], "the record")
}))

test("cut before the server had it", LIMIT, withProxy(cutOnce(CUT_BEFORE)))
test("cut after the server had it", LIMIT, withProxy(cutOnce(CUT_AFTER)))
test("a join that was cut before the server had it", LIMIT, withProxy(joinCut(CUT_BEFORE)))
test("a join that was cut after the server had it", LIMIT, withProxy(joinCut(CUT_AFTER)))
