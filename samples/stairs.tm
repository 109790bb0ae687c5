<TeXmacs|2.1>

<style|generic>

<\body>
<center|<strong|On counting the steps of a staircase>>

<center|<em|K. Oduya>>

<section|The question>

A staircase has <math|n> steps, and one may take one step or two at a time. In how many ways, call them <math|w<rsub|n>>, can it be climbed?

<section|An answer>

<subsection|Small staircases>

<\itemize>
<item>With one step there is one way.

<item>With two steps there are two: one and one, or both at once.

<item>With three there are three, as the first move leaves two steps or one.
</itemize>

<subsection|All of them>

<claim|For <math|n\<geq\>3> we have <math|w<rsub|n> = w<rsub|n-1> + w<rsub|n-2>>.>

The first move is one step, and <math|n-1> are left, or two, and <math|n-2> are left. No way is counted twice, as its first move tells which it is.

<claim|The numbers for 1 to 8 are <ways|8>.>

<section|What is left>

<\quotation>
Whoever takes three steps at a time has another sum to do, and shorter legs than the author can't follow.
</quotation>
</body>

<\initial>
<\collection>
<associate|claim-nr|0>
<associate|claim|<macro|text|<assign|claim-nr|<plus|<value|claim-nr>|1>><strong|Claim <value|claim-nr>.> <em|<arg|text>>>>
<associate|ways|<macro|most|<with|a|1|b|1|k|1|<concat|1<while|<less|<value|k>|<arg|most>>|<assign|next|<plus|<value|a>|<value|b>>><assign|a|<value|b>><assign|b|<value|next>><assign|k|<plus|<value|k>|1>>, <value|b>>>>>>
</collection>
</initial>
