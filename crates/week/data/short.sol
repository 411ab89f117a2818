<script> R<1> 0 0
&amp; R<1> 0 0
"q" R<1> 0 1
it's 0 5
<script> - 1 2
&amp; R2 1 0
