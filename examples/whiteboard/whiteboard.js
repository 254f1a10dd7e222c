/**
 * A shared whiteboard on a GRACE room. The page's address names the server and the room:
 * `?server=ws://localhost:7000/&room=drawing`. Without `server` the page uses its own host: with TLS at the page's
 * port, as behind a proxy, otherwise at port 7000. So `?room=drawing` alone is a link to a drawing. The path of the
 * connection ends with the room's name, so a proxy and a server with `--by-path` can tell rooms apart. A page that is
 * opened again continues as a site that the person's browser had, where the browser lets it. A room that takes nobody
 * new is shown. When the room is renewed, the page goes on in the new one under the same address.
 */

import { Alignment } from "./alignment.js"
import { Board } from "./board.js"
import { Changes } from "./changes.js"
import { Clipboard } from "./clipboard.js"
import { ContextMenu } from "./context_menu.js"
import { DeletedObjects } from "./deleted_objects.js"
import { DeletionMessages } from "./deletion_messages.js"
import { leaveFocus, part } from "./elements.js"
import { Files } from "./files.js"
import { Frames } from "./frames.js"
import { Gestures } from "./gestures.js"
import { Grouping } from "./groups.js"
import { Handwriting } from "./handwriting.js"
import { Incoming } from "./incoming.js"
import { Keys } from "./keys.js"
import { Nudges } from "./nudges.js"
import { showOldDrawing } from "./old_drawing.js"
import { openedRoom } from "./opened_room.js"
import { Others } from "./others.js"
import { Panel } from "./panel.js"
import { PanelButton } from "./panel_button.js"
import { People } from "./people.js"
import { PeopleList } from "./people_list.js"
import { RefusedChanges } from "./refused_changes.js"
import { Sharing } from "./sharing.js"
import { Style } from "./style.js"
import { StateLine, say, showNoDrawing, showProgress } from "./status.js"
import { TextField } from "./text_field.js"
import { Toolbar } from "./toolbar.js"
import { View } from "./view.js"
import { SMALLER_VIEW, renewedWords } from "./words.js"

/** The page and its parts. */
export class Page {
  say = say
  #progress = new Frames(() => showProgress(this.room))
  #roomName

  /** @param {import("./opened_room.js").OpenedRoom} room @param {string} roomName its first name */
  constructor(room, roomName) {
    this.#roomName = roomName
    this.room = room
    this.board = new Board(this.room)
    this.view = new View(this.board)
    this.camera = this.view.camera
    this.people = new People(this.board, this.view.sheet.element, (event) => this.camera.placeOf(event))
    this.peopleList = new PeopleList(this.people)
    this.others = new Others(this.people, this.view)
    this.refusedChanges = new RefusedChanges(this)
    this.changes = new Changes(this, roomName)
    this.deletedObjects = new DeletedObjects(this)
    this.deletionMessages = new DeletionMessages(this)
    this.clipboard = new Clipboard(this)
    this.grouping = new Grouping(this)
    this.alignment = new Alignment(this)
    this.handwriting = new Handwriting(this)
    this.style = new Style(this)
    this.tools = new Toolbar(this)
    this.nudges = new Nudges(this)
    this.textField = new TextField(this)
    this.gestures = new Gestures(this)
    this.keys = new Keys(this)
    this.files = new Files(this, roomName)
    this.incoming = new Incoming(this)
    this.menu = new ContextMenu(this)
    this.sharing = new Sharing(roomName)
    this.state = new StateLine(this.board)
    this.panel = new Panel(this, part("panel"))
    this.panelButton = new PanelButton()
    this.view.panel = this
    this.view.overlay = this.others
    part("room").textContent = roomName
    document.title = `${roomName} – Whiteboard`
    this.#listen(roomName)
    room.begin()
  }

  /** Draws the parts around the drawing. */
  draw() {
    this.panel.draw()
    this.panelButton.draw()
    this.textField.draw()
    this.tools.draw()
    this.state.draw()
  }

  /** Selects an object or none, and picks a version if one is given. */
  select(name, version) {
    if (version !== undefined) this.pick(name, version)
    this.selectAll(name === null ? [] : [name])
  }

  /** Picks a version of an object. */
  pick(name, version) {
    if (this.board.shown(name).length > 1) this.board.pick(name, version)
    this.view.change([name])
  }

  /** Selects these objects alone. */
  selectAll(names) {
    this.#reselect(() => this.board.selection.set(names))
  }

  /** Adds objects to the selection, or takes them out if all of them are selected. */
  toggle(names) {
    this.#reselect(() => this.board.selection.toggle(names))
  }

  #reselect(act) {
    const { selection } = this.board
    const before = selection.names
    act()
    this.view.sheet.leaveFocus()
    this.others.holds.tell(selection.first)
    this.view.change([...before, ...selection.names].filter((one) => this.room.has(one)))
  }

  /** Keeps versions that survived a deletion. */
  keep(name, versions) {
    this.board.keep(name, versions)
    this.view.change([name])
  }

  #listen(roomName) {
    const { room, view } = this
    room.on("change", (news) => this.#take(news))
    room.on("state", ({ state }) => this.#showState(state))
    room.on("reset", (news) => showOldDrawing(roomName, news))
    room.on("renewed", (news) => this.#goOn(roomName, news))
    room.on("progress", () => this.#load())
    const isUnsaved = () => room.pending.length > 0 || this.refusedChanges.isKeeping
    addEventListener("beforeunload", (event) => isUnsaved() && event.preventDefault())
    addEventListener("pagehide", () => this.#leave())
    showProgress(room)
  }

  /** The page is closed or loaded again. What the user writes, or moves by keys, is kept. */
  #leave() {
    leaveFocus()
    this.nudges.end()
    this.changes.save()
    this.view.save(this.#roomName)
    this.room.close()
  }

  #showState(state) {
    this.view.pending.look()
    if (!this.room.isLoaded) this.#progress.ask()
    if (state === "closed") this.view.change([])
  }

  #take(news) {
    const selected = new Set(this.board.selection.names.map(String))
    const lost = this.board.update(news)
    this.changes.entries.readNew()
    this.view.pending.look()
    this.view.change(news.objects)
    // The user's own deletion needs no message.
    if (!this.changes.isActing) this.deletionMessages.tell(lost, news.objects, selected)
  }

  /** The drawing goes on in another room. The link to it stays the same, so the page tells only what is different. */
  #goOn(roomName, news) {
    this.deletionMessages.forget()
    if (news.text !== null) showOldDrawing(roomName, news)
    else if (news.copies.length > 0) this.say(renewedWords(news.copies.length))
  }

  #load() {
    this.#progress.ask()
    if (!this.room.isLoaded) return
    if (this.view.begin(this.#roomName)) this.tools.tell(SMALLER_VIEW)
    this.changes.begin()
    this.view.change([])
  }
}

try {
  const { room, roomName } = openedRoom()
  new Page(room, roomName)
} catch (fault) {
  showNoDrawing(fault.message)
  throw fault
}
