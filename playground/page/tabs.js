// The tabs above the views: one is chosen, and arrows go from one to the next.
import { button } from "./view.js";

export class Tabs {
  /** `open` is called with the view whose tab is chosen. */
  constructor(list, panels, views, open) {
    this.views = views;
    this.tabs = views.map((view) => button(view.name, () => open(view), {
      role: "tab", id: `tab-${view.key}`, "aria-controls": `panel-${view.key}`,
      onkeydown: (event) => this.key(event, open),
    }));
    list.append(...this.tabs);
    panels.append(...views.map(({ panel }) => panel));
    this.choose(views[0]);
  }

  choose(chosen) {
    this.views.forEach((view, number) => {
      view.panel.hidden = view !== chosen;
      this.tabs[number].setAttribute("aria-selected", String(view === chosen));
      this.tabs[number].tabIndex = view === chosen ? 0 : -1;
    });
    const { offsetLeft, offsetWidth, parentElement } = this.tabs[this.views.indexOf(chosen)];
    if (parentElement.scrollWidth > parentElement.clientWidth)
      parentElement.scrollLeft = offsetLeft - (parentElement.clientWidth - offsetWidth) / 2;
  }

  key(event, open) {
    const at = this.tabs.indexOf(event.currentTarget);
    const count = this.tabs.length;
    const to = { ArrowRight: (at + 1) % count,
      ArrowLeft: (at - 1 + count) % count,
      Home: 0,
      End: count - 1 }[event.key];
    if (to === undefined) return;
    event.preventDefault();
    this.tabs[to].focus();
    open(this.views[to]);
  }
}
