"use strict";
(() => {
    const EVERY = 2000;       // ms from one answer to the next question
    const PATIENCE = 6000;    // ms without an answer until the person is told
    const MOST_SPOKEN = 5;    // changes that are spoken one by one

    const at = (id) => document.getElementById(id);
    const list = at("booths"), notices = at("notices"), lost = at("lost"), said = at("said"), blank = at("tile");
    let heard = performance.now(), watched = heard;
    let before = null;        // the answer before, to speak only of changes
    let timer = 0;

    const put = (element, text) => { if (element.textContent !== text) element.textContent = text; };

    function fill(tile, booth) {
        tile.dataset.endpoint = booth.endpoint;
        put(tile.querySelector(".name"), booth.name);
        if (tile.dataset.state === booth.state) return;
        tile.dataset.state = booth.state;
        put(tile.querySelector(".state"), booth.state);
        tile.querySelector("use").setAttribute("href", "#mark-" + booth.state.replaceAll(" ", "-"));
    }

    // The tiles that are there stay the same elements, so that nothing flashes and a reader keeps its place.
    function fillAll(booths) {
        const tiles = new Map([...list.children].map((tile) => [tile.dataset.endpoint, tile]));
        booths.forEach((booth, index) => {
            const endpoint = String(booth.endpoint);
            const tile = tiles.get(endpoint) || blank.content.firstElementChild.cloneNode(true);
            tiles.delete(endpoint);
            fill(tile, booth);
            if (list.children[index] !== tile) list.insertBefore(tile, list.children[index] || null);
        });
        tiles.forEach((tile) => tile.remove());
    }

    function tell(found) {
        const shown = new Map([...notices.children].filter((one) => one !== lost).map((one) => [one.dataset.kind, one]));
        for (const { kind, text } of found) {
            const notice = shown.get(kind) || document.createElement("p");
            shown.delete(kind);
            notice.className = "notice";
            notice.dataset.kind = kind;
            put(notice, text);
            notices.append(notice);
        }
        shown.forEach((notice) => notice.remove());
    }

    function changes(now) {
        const states = new Map(before.booths.map((booth) => [booth.endpoint, booth]));
        const found = [];
        for (const booth of now.booths) {
            const old = states.get(booth.endpoint);
            states.delete(booth.endpoint);
            if (!old || old.state !== booth.state) found.push(booth.name + ": " + booth.state + ".");
        }
        states.forEach((booth) => found.push(booth.name + ": free."));
        return found.length > MOST_SPOKEN ? [now.summary + "."] : found;
    }

    function speak(now) {
        const kinds = new Set(before.notices.map((notice) => notice.kind));
        const fresh = now.notices.filter((notice) => !kinds.has(notice.kind)).map((notice) => notice.text);
        if (before.notices.length && !now.notices.length) fresh.push("Nothing is wrong any more.");
        const text = fresh.concat(changes(now)).join(" ");
        if (text) said.textContent = text;
    }

    function show(now) {
        if (before) speak(now);
        before = now;
        document.body.dataset.state = now.state;
        put(at("summary"), now.summary);
        put(at("time"), now.time);
        document.title = now.summary + " \u2013 Booths";
        fillAll(now.booths);
        tell(now.notices);
    }

    function reached(is) {
        if (lost.hidden === is) return;
        lost.hidden = is;
        document.body.dataset.reach = is ? "" : "lost";
        said.textContent = is ? "The server is reached again." : lost.textContent;
    }

    async function ask() {
        clearTimeout(timer);
        const stop = new AbortController();
        const limit = setTimeout(() => stop.abort(), PATIENCE);
        try {
            const answer = await fetch("/status", { signal: stop.signal, cache: "no-store" });
            if (!answer.ok) throw new Error(answer.status);
            show(await answer.json());
            heard = performance.now();
            reached(true);
        } catch {
            // Asked again below; the person is told by the watch.
        }
        clearTimeout(limit);
        timer = setTimeout(ask, EVERY);
    }

    // A page that was asleep could hear nothing: its patience begins again.
    function watch() {
        const now = performance.now();
        if (now - watched > 3000) heard = now;
        watched = now;
        if (now - heard > PATIENCE) reached(false);
    }

    setInterval(watch, 1000);
    document.addEventListener("visibilitychange", () => { if (!document.hidden) ask(); });
    ask();
})();
