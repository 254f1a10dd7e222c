/** Clients that continue from stored state, as a reloaded page does. */

import assert from "node:assert/strict"
import test from "node:test"
import { withDefaults } from "../options.js"
import { agree, enter, operations, sitesOf, versionsOf, withProxy, withServer } from "./rooms.js"
import { LIMIT, numbersFrom, waitUntil } from "./checks.js"
import { CUT_AFTER, CUT_BEFORE, CUT_LATE, PASS } from "./proxy.js"
import { SmallStorage, Storage } from "./storage.js"

/** A reloaded client keeps its site, shows all objects at once, and continues its numbers. */
test("reloaded", LIMIT, withServer(async (client) => {
  const storage = new Storage()
  const [first, other] = [await client({ storage }), await client()]
  const made = first.create("rect", { x: 2n ** 63n - 1n, name: "é\u2028\"" })
  for (let number = 0; number < 100; number++) other.create("line")
  await agree(first, other)
  const { record, site } = first
  first.close()
  await other.set(made.name, [], "x", 7).done
  const objects = []
  const again = await client({ storage, connecting: (room) => {
    assert.deepEqual(
      [room.state, room.site, room.record], ["connecting", site, record], "what it is before it is connected",
    )
    room.on("change", (news) => objects.push(news.objects.length))
  } })
  assert.deepEqual(objects, [101, 1], "the numbers of changed objects")
  assert.deepEqual([again.site, sitesOf(again)], [1, [1, 2]], "the site")
  assert.deepEqual(versionsOf(again, made.name), [[[], [["name", "é\u2028\""], ["x", 7]]]], "what it shows")
  const next = again.set(made.name, [], "x", 8)
  await agree(again, other)
  assert.deepEqual([next.name, again.record.at(-1)[2]], [[1, 2], [[1, 1], [2, 101]]], "the next change")
  assert.deepEqual(versionsOf(again, made.name), versionsOf(other, made.name), "what both show")
}))

/** A change was on its way when the page was reloaded. The client sends it again if the server lacks it. */
const onItsWay = (what) => async (proxy, room, other) => {
  const storage = new Storage()
  const first = await enter(proxy.address, { storage })
  const made = first.create("rect")
  await agree(first, other)
  proxy.cutOnce('["put"', what)
  const release = other.hold()
  const put = first.put(made.name, [], { x: 5 })
  const behind = first.set(made.name, put.version, "y", 6)
  await waitUntil("the connection is cut", () => proxy.cuts === 1)
  first.close()
  assert.equal(await put.done.catch(({ word }) => word), "closed", "the outcome of the change")
  await other.set(made.name, [], "x", 9).done
  release()
  const again = await enter(proxy.address, { storage })
  await agree(again, other)
  assert.deepEqual([again.site, sitesOf(other)], [3, [1, 2, 3]], "the site")
  assert.deepEqual(operations(other).filter(([, [site]]) => site === 3), [
    ["new", [3, 1], [], "rect", []], ["put", [3, 2], [[3, 1]], [3, 1], [], [["x", 5]]],
    ["put", [3, 3], [[3, 2]], [3, 1], [], [["y", 6]]],
  ], "the operations")
  assert.deepEqual([put.name, behind.name], [[3, 2], [3, 3]], "their names")
  const two = [[[[2, 1]], [["x", 9]]], [[[3, 2], [3, 3]], [["x", 5], ["y", 6]]]]
  assert.deepEqual([versionsOf(again, made.name), versionsOf(other, made.name)], [two, two], "what both show")
  again.close()
}

/** If the site is in use, the client tries for a while, by default 90 seconds, and then gets a new site. */
test("a site in use", LIMIT, withServer(async (client) => {
  const storage = new Storage()
  const first = await client({ storage })
  await first.create("rect").done
  const words = []
  const recordWords = (room) => room.on("state", (news) => words.push(news.words))
  const second = await client({ storage: new Storage(storage), connecting: recordWords, backMilliseconds: 300 })
  const still = "The server still has your previous connection. Trying again."
  assert.deepEqual(words, ["Connecting.", still, "Connected as site 2."], "the words")
  assert.deepEqual([first.site, second.site, second.objects()], [1, 2, [[1, 1]]], "the sites")
  setTimeout(() => first.close(), 6000)
  const third = await client({ storage: new Storage(storage), connecting: recordWords })
  assert.deepEqual(words.slice(3), ["Connecting.", still, "Connected as site 1."], "the later words")
  await third.create("line").done
  assert.deepEqual([third.site, third.record.at(-1)[1], sitesOf(third)], [1, [1, 2], [1, 2]], "the sites")
  assert.equal(withDefaults({}).backMilliseconds, 90000, "how long it tries")
}))

/** Any client can come back as a free site. If another was in as its site meanwhile, a client gets a new one. */
test("a site that another client used", LIMIT, withProxy(async (proxy, room, other, server) => {
  const storage = new Storage()
  const first = await enter(proxy.address, { storage })
  const made = first.create("rect")
  await agree(first, other)
  proxy.whatToDo = () => CUT_BEFORE
  proxy.cut()
  await waitUntil("the connection is lost", () => first.state !== "open")
  const stranger = await enter(server.address, { storage: storage.copyFor(server.address) })
  assert.equal(stranger.site, 3, "the stranger's site")
  await stranger.set(made.name, [], "x", 1).done
  stranger.close()
  const put = first.set(made.name, [], "x", 2)
  proxy.whatToDo = () => PASS
  await agree(first, other)
  assert.deepEqual([first.site, put.name, sitesOf(other)], [4, [4, 1], [1, 2, 3, 4]], "the sites")
  const two = [[[[3, 2]], [["x", 1]]], [[[4, 1]], [["x", 2]]]]
  assert.deepEqual([versionsOf(first, made.name), versionsOf(other, made.name)], [two, two], "what both show")
  proxy.whatToDo = () => CUT_BEFORE
  proxy.cut()
  await waitUntil("the connection is lost", () => first.state !== "open")
  const next = await enter(server.address, { storage: storage.copyFor(server.address) })
  assert.equal(next.site, 4, "the next stranger's site")
  await next.create("line").done
  next.close()
  proxy.whatToDo = () => PASS
  await agree(first, other)
  assert.deepEqual([first.site, first.objects()], [5, [[3, 1], [4, 2]]], "the sites, with nothing to send")
  assert.deepEqual(first.refused, [], "the refusals")
  first.close()
}))

/** A room that started again while the page was closed is reported, with the text of the stored record. */
test("reloaded in a room that started again", LIMIT, withServer(async (client, server) => {
  const storage = new Storage()
  const first = await client({ storage })
  await first.create("rect").done
  await waitUntil("the record", () => first.record.length === 2)
  first.close()
  await server.end()
  await server.listen(10)
  const resets = []
  const again = await client({ storage, connecting: (room) => {
    assert.deepEqual(room.objects(), [[1, 1]], "what is shown")
    room.on("reset", ({ text }) => resets.push([text, room.objects()]))
  } })
  assert.deepEqual(resets, [['["join",1]\n["new",[1,1],[],"rect",[]]\n', []]], "the news")
  assert.deepEqual([again.site, again.record], [1, [["join", 1]]], "what it has")
  again.close()
  const last = await client({ storage })
  assert.deepEqual([last.site, last.record, resets.length], [1, [["join", 1]], 1], "what is kept then")
}))

/** If the storage is full, the site stays stored, and the client pulls the record again. */
test("reloaded with a full storage", LIMIT, withServer(async (client) => {
  const storage = new SmallStorage()
  const [first, other] = [await client({ storage }), await client()]
  const made = first.create("rect")
  await made.done
  assert.ok([...storage.texts.keys()].some((key) => key.endsWith("record 0")), "the record is kept")
  for (let number = 0; number < 40; number++) first.create("line", { number })
  await agree(first, other)
  assert.deepEqual([...storage.texts.values()], ["1"], "what is kept")
  first.close()
  const again = await client({ storage })
  assert.deepEqual([again.site, again.objects().length, sitesOf(again)], [1, 41, [1, 2]], "what it has")
  assert.deepEqual(again.create("line").name, [1, 42], "the next change")
  await agree(again, other)
}))

/** Damaged stored state is ignored. */
test("reloaded with a damaged storage", LIMIT, withServer(async (client) => {
  const storage = new Storage()
  const first = await client({ storage })
  await first.create("rect").done
  await waitUntil("the record", () => first.record.length === 2)
  const keys = [...storage.texts.keys()]
  assert.deepEqual(keys.map((key) => key.split(" r ")[1]).sort(), ["changes", "record 0", "site"], "what is kept")
  let site = 1
  for (const key of keys) {
    for (const text of ["", "[", "[[1]]", '[["new",[1,7],[],"rect",[]]]', "{}", "0"]) {
      const other = new Storage(storage)
      other.setItem(key, text)
      const next = await client({ storage: other })
      site += 1
      assert.deepEqual([next.site, next.objects()], [site, [[1, 1]]], `the site with ${key} as ${text}`)
    }
  }
}))

/** A client draws while its connections are cut and it is reloaded at random. Each change is made exactly once. */
test("reloaded at random", LIMIT, withProxy(async (proxy, room, other, server, t) => {
  const seed = Number(process.env.SEED ?? Date.now() % 1000000)
  const draw = numbersFrom(seed)
  console.log(`reloaded at random: seed ${seed}`)
  const storage = new Storage()
  const cuts = [CUT_BEFORE, CUT_AFTER, CUT_LATE, PASS, PASS, PASS, PASS, PASS, PASS, PASS]
  let mine = await enter(proxy.address, { storage })
  proxy.whatToDo = () => (proxy.cuts < 40 ? cuts[draw(cuts.length)] : PASS)
  const loads = 30
  const expected = []
  for (let load = 0; load < loads; load++) {
    for (let count = draw(4); count >= 0; count--) {
      const author = draw(3) > 0 ? mine : other
      const objects = author.objects()
      const object = objects[draw(objects.length)]
      const versions = object === undefined ? [] : author.versions(object)
      const value = expected.length
      if (versions.length === 0 || draw(5) === 0) author.create("rect", { value })
      else author.set(object, versions[draw(versions.length)], ["x", "y"][draw(2)], value)
      expected.push(value)
    }
    await new Promise((resolve) => setTimeout(resolve, draw(40)))
    mine.close()
    mine = await enter(proxy.address, { storage, backMilliseconds: 60000 })
  }
  await agree(mine, other)
  const values = operations(other).map((entry) => entry.at(-1)[0][1])
  assert.deepEqual(values.sort((one, next) => one - next), expected, "the values, each once")
  for (const object of other.objects()) {
    assert.deepEqual(versionsOf(mine, object), versionsOf(other, object), `object ${object}`)
  }
  assert.deepEqual([mine.site, sitesOf(other)], [3, [1, 2, 3]], "the sites")
  assert.deepEqual([mine.refused, other.refused], [[], []], "the refusals")
  mine.close()
  t.diagnostic(`${expected.length} values, ${loads} loads, ${proxy.cuts} cuts`)
}))

test("reloaded with a change on its way that the server lacks", LIMIT, withProxy(onItsWay(CUT_BEFORE)))
test("reloaded with a change on its way that the server has", LIMIT, withProxy(onItsWay(CUT_AFTER)))
test("reloaded with a change on its way that arrives late", LIMIT, withProxy(onItsWay(CUT_LATE)))
