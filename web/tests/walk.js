// Goes on by so many steps, and gives of each step how much of some elements is in the window; how far the page is
// scrolled, and could be; and which step is shown.
((steps, names) => {
  const seenOf = (name) => {
    const { top, bottom } = document.querySelector(name).getBoundingClientRect();
    return Math.min(bottom, innerHeight) - Math.max(top, 0);
  };
  return Array.from({ length: steps }, () => {
    document.querySelector('#step').click();
    return [names.map(seenOf), scrollY, document.documentElement.scrollHeight - innerHeight,
      document.querySelector('#shown').textContent.trim().slice(0, 20)];
  });
})
