<TeXmacs|2.1>

<style|book>

<\body>
<chapter|Rope>

A rope is made of <dfn|strands>, a strand of <dfn|yarns>, and a yarn of fibres. Each is laid against the one before, so that they hold one another.

<section|What it carries>

<\definition>
The <em|breaking load> of a rope is the load at which the first strand parts.
</definition>

<\example>
A rope of three strands, each of which parts at 400 kg, carries

<\equation>
P=3*<frac|400|k>.
</equation>
</example>

<\quote-env>
Trust no rope that you have not seen laid.
</quote-env>

<big-figure|<image|lay.png|8cm|||>|The lay of a rope>

<chapter|Knots>

<section|Hitches>

<\description>
<item*|Half hitch>A turn round a post, under itself.

<item*|Clove hitch>Two of them, side by side.
</description>

<\exercise>
Tie a clove hitch with one hand.
</exercise>

<appendix|Tables>

<section|Loads>

The loads are in kilograms.
</body>
